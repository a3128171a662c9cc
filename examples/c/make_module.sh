#!/bin/sh
# Writes a small module to standard output: four instructions, a type, an export, and a handler for the exception "oops".
set -eu

# so many bytes, each given in hexadecimal
bytes() {
    for b in "$@"; do
        printf "\\$(printf %03o "0x$b")"
    done
}

# a name, and the zero that ends it
name() {
    printf '%s\000' "$1"
}

# 1, the header
bytes C0 0C 80 30 # magic 819248
bytes 20          # flags: 32, handlers
bytes 00          # stack extent
bytes 04          # code size
bytes 08          # data size
bytes 01          # type size
bytes 01          # export size
bytes 00          # entry pc
bytes 00          # entry type

# 2, the code: an opcode, an addressing byte, operands
bytes 2D 11 07 00 # movw $7, 0(fp)
bytes 2D 09 00 04 # movw 0(fp), 4(fp)
bytes 9E 0B 00    # raise 0(fp)
bytes 0F 1B       # exit

# 3, the type: id 0, size 8, a map of one byte
bytes 00 08 01 80

# 4, no data
bytes 00

# 5, the module's name
name small

# 6, the export: pc 0, frame type 0, signature, name
bytes 00 00 12 34 56 78
name main

# 8, one handler: exception offset 0, from pc 0 to 3, type 0; one case by name, at pc 3; the last case catches nothing
bytes 01 00 00 03 00 01
name oops
bytes 03
bytes 7F
bytes 00
