# file.awk: the file of a plan, made of the plan's lines by the text of requests (iv) and (v) alone: a line of output for each block of 512 bytes, each
# byte as printf's backslash and three octal digits. -v rows, words and zeros are the format: the rows of a block, the words of a row and the zero bytes
# before the rows. -v fault='BLOCK BYTE VALUE' sets a byte of a block before its check is made; several go with commas between.
function put_block(    b, w, sum) {
    byte[0] = block % 256; byte[1] = int(block / 256); byte[4] = used
    for (b in faulty) {
        split(faulty[b], f, " ")
        if (f[1] == block) byte[f[2]] = f[3]
    }
    sum = 0
    for (w = 0; w < 508; w += 4) sum += byte[w] + 256 * byte[w + 1] + 65536 * byte[w + 2] + 16777216 * byte[w + 3]
    sum %= 4294967296
    for (b = 508; b < 512; b++) {
        byte[b] = sum % 256
        sum = int(sum / 256)
    }
    for (b = 0; b < 512; b++) {
        printf "\\%03o", byte[b]
        byte[b] = 0
    }
    printf "\n"
    block++
    used = 0
}
BEGIN { split(fault, faulty, ","); block = 0; used = 0; for (b = 0; b < 512; b++) byte[b] = 0 }
{
    at = 8 + zeros + 2 * words * used
    for (j = 0; j < words; j++) {
        byte[at + 2 * j] = $(j + 2) % 256
        byte[at + 2 * j + 1] = int($(j + 2) / 256)
    }
    if (++used == rows) put_block()
}
END { if (used) put_block() }
