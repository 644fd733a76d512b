/* floor IMAGE < PLAN: writes what a plan names, and nothing else, so that its time is a bound from below.
 *
 * A line of the plan is `sync`, or a kind, a block's number and a count: so many neighbouring blocks of 1,024 bytes, each
 * written by a call of its own. `sealed` blocks are hashed up to their seal and `digested` ones whole, by the SHA-256 of
 * OpenSSL, which uses what the processor has for it; `plain` ones aren't hashed. There is no tree, no look-up and no
 * script. Standard output has how many writes, syncs and hashes there were.
 */
#define _GNU_SOURCE
#include "script.h"

#include <fcntl.h>
#include <inttypes.h>
#include <openssl/evp.h>
#include <string.h>
#include <unistd.h>

enum { BLOCK = 1024, SEAL = 32 };

struct counts {
    unsigned long writes, syncs, hashes;
};

static unsigned char block[BLOCK];

/* Hashes so many bytes of the block, and puts the digest at its end, which makes the next block another one. */
static void hash(size_t length, struct counts *counts) {
    static EVP_MD_CTX *context;
    static EVP_MD *algorithm;
    unsigned char digest[SEAL];
    if (context == NULL) {
        context = EVP_MD_CTX_new();
        algorithm = EVP_MD_fetch(NULL, "SHA256", NULL);
    }
    if (context == NULL || algorithm == NULL || !EVP_DigestInit_ex2(context, algorithm, NULL)
        || !EVP_DigestUpdate(context, block, length) || !EVP_DigestFinal_ex(context, digest, NULL))
        fail("hash", "SHA-256", "OpenSSL refuses");
    memcpy(block + BLOCK - SEAL, digest, SEAL);
    counts->hashes++;
}

static size_t hashed_bytes(const char *kind) {
    if (strcmp(kind, "sealed") == 0)
        return BLOCK - SEAL;
    if (strcmp(kind, "digested") == 0)
        return BLOCK;
    if (strcmp(kind, "plain") == 0)
        return 0;
    fail("plan", kind, "it is no kind of block");
}

static void write_blocks(int image, size_t hashed, uint64_t first, uint64_t many, struct counts *counts) {
    for (uint64_t number = first; number < first + many; number++) {
        memcpy(block, &number, sizeof number);
        if (hashed != 0)
            hash(hashed, counts);
        if (pwrite(image, block, BLOCK, (off_t)(number * BLOCK)) != BLOCK)
            fail_by_system("write", "image");
        counts->writes++;
    }
}

static void follow(int image, const char *line, struct counts *counts) {
    char kind[16];
    uint64_t first, many;
    if (strcmp(line, "sync\n") == 0) {
        if (fdatasync(image) != 0)
            fail_by_system("sync", "image");
        counts->syncs++;
    } else if (sscanf(line, "%15s %" SCNu64 " %" SCNu64, kind, &first, &many) == 3) {
        write_blocks(image, hashed_bytes(kind), first, many, counts);
    } else {
        fail("plan", line, "it is no line of a plan");
    }
}

int main(int count, char **words) {
    if (count != 2)
        fail("floor", "usage", "floor IMAGE < PLAN");
    int image = open(words[1], O_RDWR | O_CLOEXEC);
    if (image < 0)
        fail_by_system("open", words[1]);
    struct counts counts = {0};
    char line[64];
    while (fgets(line, sizeof line, stdin) != NULL)
        follow(image, line, &counts);
    if (ferror(stdin))
        fail_by_system("plan", "read");
    printf("writes %lu syncs %lu hashes %lu\n", counts.writes, counts.syncs, counts.hashes);
    end_output();
    return 0;
}
