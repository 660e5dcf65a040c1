/* Stored and mapped: an index written into a mapped file; mapped again, checked and queried. */
#define _POSIX_C_SOURCE 200809L
#include <bitm.h>
#include <fcntl.h>
#include <inttypes.h>
#include <stdio.h>
#include <sys/mman.h>
#include <unistd.h>

enum { BITS = 100000, WORDS = (BITS + 63) / 64 };

int main(int argc, char **argv)
{
    static uint64_t words[WORDS];
    struct bitm_index squares = {0};
    uint64_t rank, len;
    if (argc != 2 || bitm_index_block_size(BITS, &len) != BITM_OK) return 2;
    const size_t size = 8 * (size_t)len;
    const int fd = open(argv[1], O_RDWR | O_CREAT | O_TRUNC, 0666);
    if (fd < 0 || ftruncate(fd, (off_t)size) != 0) return 1;
    uint64_t *file = mmap(NULL, size, PROT_READ | PROT_WRITE, MAP_SHARED, fd, 0);
    for (uint64_t i = 0; i * i < BITS; i++) bitm_set_bit_at(words, i * i, true); /* the square numbers */
    if (file == MAP_FAILED || bitm_index_block_build(words, WORDS, BITS, file, len) != BITM_OK ||
        msync(file, size, MS_SYNC) != 0 || munmap(file, size) != 0) return 1;

    const off_t bytes = lseek(fd, 0, SEEK_END);
    const uint64_t *read = mmap(NULL, (size_t)bytes, PROT_READ, MAP_SHARED, fd, 0);
    if (read == MAP_FAILED || bitm_index_block_open(read, (size_t)bytes / 8, &squares) != BITM_OK ||
        bitm_index_block_check(read, (size_t)bytes / 8) != BITM_OK || bitm_index_rank(&squares, true, 50000, &rank) != BITM_OK) return 1;
    printf("%" PRIu64 " bits in %" PRIu64 " bytes, %" PRIu64 " squares below 50000\n", squares.bits_len, (uint64_t)bytes, rank);
    return 0;
}
