/* Runs the library under valgrind's memcheck with keys, blocks and contents marked as undefined. Memcheck follows undefined bits through every
 * instruction and reports a jump that depends on one and a memory access at such an address: exactly what time or a shared cache would tell
 * of a secret. Each call below must be reported no more often than is said for it. */
#include "rognivar.h"

#include <stdio.h>
#include <string.h>
#include <valgrind/memcheck.h>

enum { LENGTH = 100, LABEL = 37 };

static const char *const mode_names[] = {"", "CLOC", "SILC"};
static const char *const cipher_names[] = {"", "AES-128", "PRESENT-80", "LED-80", "TWINE-80"};
static int failed;

/* How many reports came since the last call of this, held to what is allowed. */
static unsigned reports_before;
static void judge(const char *mode, const char *cipher, const char *call, unsigned allowed) {
  unsigned now = VALGRIND_COUNT_ERRORS, found = now - reports_before;
  reports_before = now;
  printf("%-5s %-11s %-34s %u reports, %u allowed%s\n", mode, cipher, call, found, allowed, found > allowed ? ": A SECRET LEAKS" : "");
  if (found > allowed) failed = 1;
}

static void secret(void *at, size_t length) { (void)VALGRIND_MAKE_MEM_UNDEFINED(at, length); }
static void public(void *at, size_t length) { (void)VALGRIND_MAKE_MEM_DEFINED(at, length); }

static uint32_t need(uint32_t status, const char *call) {
  public(&status, sizeof status);
  if (status != ROGNIVAR_OK) {
    printf("%s was refused: %u\n", call, status);
    failed = 1;
  }
  return status;
}

/* A leak of each kind, planted here, which has to be found: else the test tells nothing. */
static volatile uint8_t table[256];
static void planted(void) {
  volatile uint8_t key = 0x5a;
  unsigned before = VALGRIND_COUNT_ERRORS;
  secret((void *)&key, 1);
  volatile uint8_t read = table[key];
  unsigned after_access = VALGRIND_COUNT_ERRORS;
  if (key & 1) read++;
  unsigned after_jump = VALGRIND_COUNT_ERRORS;
  printf("planted: a table read at a secret place %s, a jump on a secret bit %s\n", after_access > before ? "found" : "NOT FOUND",
      after_jump > after_access ? "found" : "NOT FOUND");
  if (after_access == before || after_jump == after_access) failed = 1;
  reports_before = after_jump;
}

static void one(uint32_t code, uint32_t cipher) {
  const char *m = mode_names[code], *c = cipher_names[cipher];
  size_t width = cipher == ROGNIVAR_AES128 ? 16 : 8, key_length = cipher == ROGNIVAR_AES128 ? 16 : 10;
  rognivar_set set = {(uint8_t)code, (uint8_t)width, (uint8_t)(width - 2), (uint8_t)width, 0xc0};
  uint8_t key[16], block[16], nonce[16] = {0}, label[LABEL], contents[LENGTH], sealed[LENGTH], out[LENGTH], tag[16], work[64];
  rognivar_mode mode;
  rognivar_refusal refusal;
  uint64_t count;
  memset(key, 0x3c, sizeof key);
  memset(block, 0x71, sizeof block);
  memset(label, 0xe5, sizeof label);
  memset(contents, 0x19, sizeof contents);
  memset(work, 0, sizeof work);
  secret(key, sizeof key);
  need(rognivar_mode_new(&mode, code, cipher, key, key_length, ROGNIVAR_NO_END, &refusal), "making a mode");
  judge(m, c, "takes a key", 0);
  secret(block, sizeof block);
  need(rognivar_run(&mode, block, width, &refusal), "a run");
  judge(m, c, "sets the key and runs", 0);
  secret(contents, sizeof contents);
  for (size_t length = 0; length <= LENGTH; length += 20) {
    need(rognivar_seal(&mode, &set, nonce, width - 2, label, LABEL, contents, length, sealed, length, tag, width, work, 64, &count, &refusal),
        "sealing");
  }
  judge(m, c, "seals 0 to 100 bytes", 0);
  /* The ciphertext and the tag go over the wire, so an attacker has them; the key is secret still. */
  public(sealed, sizeof sealed);
  public(tag, sizeof tag);
  need(rognivar_open(&mode, &set, nonce, width - 2, label, LABEL, sealed, LENGTH, tag, width, out, LENGTH, work, 64, &count, &refusal), "opening");
  judge(m, c, "opens (one jump: the tag is right)", 1);
  /* A wrong tag: the answer is public, and where it differs must not show. */
  for (size_t i = 0; i < width; i++) {
    tag[i] ^= 0x40;
    uint32_t status = rognivar_open(&mode, &set, nonce, width - 2, label, LABEL, sealed, LENGTH, tag, width, out, LENGTH, work, 64, &count, &refusal);
    public(&status, sizeof status);
    if (status != 12) {
      printf("a wrong tag gave %u\n", status);
      failed = 1;
    }
    tag[i] ^= 0x40;
  }
  judge(m, c, "refuses wrong tags (the same jump)", 1);
}

int main(void) {
  if (!RUNNING_ON_VALGRIND) {
    puts("run this under valgrind: tests/timing/run");
    return 1;
  }
  planted();
  for (uint32_t code = ROGNIVAR_CLOC; code <= ROGNIVAR_SILC; code++)
    for (uint32_t cipher = ROGNIVAR_AES128; cipher <= ROGNIVAR_TWINE80; cipher++) one(code, cipher);
  puts(failed ? "FAILED" : "no jump and no address depends on a key, a block or contents");
  return failed;
}
