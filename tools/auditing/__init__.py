"""Journals judged by the definitions: whether each entry is allowed in the core that those before it leave."""
