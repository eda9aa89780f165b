/* A plugin for QEMU's TCG: it leaves the program counter of the guest's instruction in a shared file, before the
   instruction is executed. So whoever answers an access that the instruction makes can read from where it comes.

       -plugin counter.so,page=FILE[,from=HEX][,to=HEX]

   FILE has 4,096 octets; only instructions from `from` up to but not `to` are seen, all of them without these words. It
   is for one virtual processor: of several it leaves whichever began an instruction last. */
#include <fcntl.h>
#include <stdint.h>
#include <stdio.h>
#include <stdlib.h>
#include <string.h>
#include <sys/mman.h>
#include <unistd.h>

#include "qemu_api.h"

enum { PAGE = 4096 };

static volatile uint64_t *page;
static uint64_t from, to = UINT64_MAX;

EXPORT int qemu_plugin_version = 1;

static void before(unsigned processor, void *counter) {
  (void)processor;
  *page = (uint64_t)(uintptr_t)counter;
}

static void translated(qemu_plugin_id_t id, struct qemu_plugin_tb *block) {
  size_t count = qemu_plugin_tb_n_insns(block);
  (void)id;
  for (size_t i = 0; i < count; i++) {
    struct qemu_plugin_insn *instruction = qemu_plugin_tb_get_insn(block, i);
    uint64_t counter = qemu_plugin_insn_vaddr(instruction);
    if (counter >= from && counter < to)
      qemu_plugin_register_vcpu_insn_exec_cb(instruction, before, QEMU_PLUGIN_CB_NO_REGS, (void *)(uintptr_t)counter);
  }
}

/* The value of a word of this name, or NULL. */
static const char *value_of(const char *word, const char *name) {
  size_t length = strlen(name);
  return strncmp(word, name, length) == 0 && word[length] == '=' ? word + length + 1 : NULL;
}

EXPORT int qemu_plugin_install(qemu_plugin_id_t id, const void *info, int count, char **words) {
  const char *path = NULL, *value;
  (void)info;
  for (int i = 0; i < count; i++) {
    if ((value = value_of(words[i], "page"))) path = value;
    else if ((value = value_of(words[i], "from"))) from = strtoull(value, NULL, 16);
    else if ((value = value_of(words[i], "to"))) to = strtoull(value, NULL, 16);
    else return fprintf(stderr, "counter.so: no such word: %s\n", words[i]), -1;
  }
  int file = path ? open(path, O_RDWR | O_CLOEXEC) : -1;
  void *mapped = file < 0 ? MAP_FAILED : mmap(NULL, PAGE, PROT_READ | PROT_WRITE, MAP_SHARED, file, 0);
  if (file >= 0) close(file);
  if (mapped == MAP_FAILED) return fprintf(stderr, "counter.so: page=FILE can't be mapped\n"), -1;
  page = mapped;
  qemu_plugin_register_vcpu_tb_trans_cb(id, translated);
  return 0;
}
