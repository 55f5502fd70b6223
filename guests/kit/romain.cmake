# A toolchain file of CMake for guests:
#     cmake -DCMAKE_TOOLCHAIN_FILE=.../guests/kit/romain.cmake ..
# The project then has add_subdirectory(.../guests/kit kit), and links its programs with romain_kit.
set(CMAKE_SYSTEM_NAME Generic)
set(CMAKE_SYSTEM_PROCESSOR riscv32)

if(DEFINED ENV{CROSS_COMPILE})
    set(prefix $ENV{CROSS_COMPILE})
else()
    set(prefix riscv64-unknown-elf-)
endif()
set(CMAKE_C_COMPILER ${prefix}gcc)
set(CMAKE_CXX_COMPILER ${prefix}g++)
set(CMAKE_ASM_COMPILER ${prefix}gcc)
# there is no program that could be linked before the kit is there
set(CMAKE_TRY_COMPILE_TARGET_TYPE STATIC_LIBRARY)

set(machine "-march=rv32im -mabi=ilp32 -mstrict-align")
set(atomics "-fno-inline-atomics -include \"${CMAKE_CURRENT_LIST_DIR}/atomics.h\"")
set(options "${machine} -ffreestanding -fno-builtin -fno-pic -fno-asynchronous-unwind-tables -ffunction-sections ${atomics}")
set(CMAKE_C_FLAGS_INIT "${options}")
set(CMAKE_CXX_FLAGS_INIT "${options} -fno-exceptions -fno-rtti -fno-threadsafe-statics -fno-use-cxa-atexit")
set(CMAKE_ASM_FLAGS_INIT "${machine}")
set(CMAKE_EXE_LINKER_FLAGS_INIT "-nostdlib -static")
