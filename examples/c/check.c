/* Checks a good record and a damaged one, as a host would that has them from the network. */
#include <ruddelfo.h>
#include <stdio.h>

static void print(const char *what, ruddelfo_answer a) {
    printf("%-28s number %u, layer %u, place %u\n", what, a.number, a.layer, a.place);
}

int main(void) {
    uint8_t key[32], record[48] = {0}, tag[32];
    for (int i = 0; i < 32; i++) key[i] = (uint8_t)i;

    /* COMMIT by replica 1 of 3, count 3: view 0, length 2. */
    record[0] = 2;
    record[1] = 1;
    record[7] = 3;
    record[15] = 2;
    if (!ruddelfo_hmac(key, sizeof key, record, sizeof record, tag, sizeof tag)) return 1;
    print("a good record:", ruddelfo_check(3, 0, key, sizeof key, record, sizeof record, tag, sizeof tag));

    record[15] = 3;
    print("its length damaged:", ruddelfo_check(3, 0, key, sizeof key, record, sizeof record, tag, sizeof tag));

    record[40] = 1;
    print("a byte that must be zero:", ruddelfo_check(3, 0, key, sizeof key, record, sizeof record, tag, sizeof tag));
    return 0;
}
