/* A guest that is nothing but a driver: it boots by multiboot, finds the adapter on the PCI bus, sends three frames,
   and waits for the interrupt of each. It prints what it finds on the serial port, and then resets the machine.

       cc -m32 -ffreestanding -fno-pic -fno-stack-protector -nostdlib -static -g \
          -Wl,-Ttext=0x100000 bare.c -o bare.elf */
#include <stdbool.h>
#include <stdint.h>

enum {
  CTRL = 0x0000,
  ICR = 0x00C0,
  IMS = 0x00D0,
  IMC = 0x00D8,
  TCTL = 0x0400,
  TDBAL = 0x3800,
  TDLEN = 0x3808,
  TDH = 0x3810,
  TDT = 0x3818,
  TXDW = 1,
  DESCRIPTORS = 8,
  VECTOR = 0x40,
  CODE = 0x08
};

struct descriptor {
  uint64_t address;
  uint16_t length;
  uint8_t checksum, command, status, start;
  uint16_t special;
};

/* The header by which a loader knows this file: it asks for nothing. */
__attribute__((section(".text.head"), used, aligned(4))) static const uint32_t multiboot[3] = {0x1BADB002, 0,
                                                                                               -0x1BADB002u};

static struct descriptor ring[DESCRIPTORS] __attribute__((aligned(128)));
static uint8_t frame[64] = {0xFF, 0xFF, 0xFF, 0xFF, 0xFF, 0xFF, 0x52, 0x54, 0x00,
                            0x12, 0x34, 0x56, 0x88, 0xB5, 'b',  'a',  'r',  'e'};
static volatile uint32_t *registers;
static volatile uint32_t interrupts, causes;
static uint8_t stack[16384] __attribute__((used));

/* ---- the machine */

static void out8(uint16_t port, uint8_t value) {
  __asm__ volatile("outb %0, %1" : : "a"(value), "Nd"(port));
}

static uint8_t in8(uint16_t port) {
  uint8_t value;
  __asm__ volatile("inb %1, %0" : "=a"(value) : "Nd"(port));
  return value;
}

static void out32(uint16_t port, uint32_t value) {
  __asm__ volatile("outl %0, %1" : : "a"(value), "Nd"(port));
}

static uint32_t in32(uint16_t port) {
  uint32_t value;
  __asm__ volatile("inl %1, %0" : "=a"(value) : "Nd"(port));
  return value;
}

static void print(const char *text) {
  for (; *text; text++) {
    while (!(in8(0x3FD) & 0x20)) continue;
    out8(0x3F8, (uint8_t)*text);
  }
}

static void print_number(const char *what, uint32_t value) {
  char digits[] = "00000000\n";
  for (int i = 7; i >= 0; i--, value >>= 4) digits[i] = "0123456789ABCDEF"[value & 15];
  print(what);
  print(digits);
}

static uint32_t config_read(uint32_t slot, uint32_t offset) {
  out32(0xCF8, 0x80000000u | slot << 11 | offset);
  return in32(0xCFC);
}

static void config_write(uint32_t slot, uint32_t offset, uint32_t value) {
  out32(0xCF8, 0x80000000u | slot << 11 | offset);
  out32(0xCFC, value);
}

/* ---- interrupts */

static volatile uint32_t *at(uint32_t address) {
  return (volatile uint32_t *)(uintptr_t)address;
}

__attribute__((used)) static void on_interrupt(void) {
  uint32_t now = registers[ICR / 4];
  if (now != 0) interrupts++; /* (without a cause the line fell too late) */
  causes |= now;
  *at(0xFEE000B0) = 0; /* the end of the interrupt */
}

/* (Some hosts' KVM can't do an iret here. This leaves interrupts off, so that none comes before it is back.) */
void entry(void);
__asm__("entry: pusha\n cld\n call on_interrupt\n popa\n pushl 8(%esp)\n andl $~512, (%esp)\n popfl\n lret $4\n");

struct gate {
  uint16_t low, selector, kind, high;
};

static struct gate gates[VECTOR + 1];

static const uint64_t segments[] = {0, 0x00CF9A000000FFFF, 0x00CF92000000FFFF};

static void take_interrupts(uint32_t input) {
  struct __attribute__((packed)) {
    uint16_t limit;
    uint32_t base;
  } table = {sizeof gates - 1, (uint32_t)(uintptr_t)gates},
    globals = {sizeof segments - 1, (uint32_t)(uintptr_t)segments};
  uint32_t handler = (uint32_t)(uintptr_t)entry;
  gates[VECTOR].low = (uint16_t)handler;
  gates[VECTOR].high = (uint16_t)(handler >> 16);
  gates[VECTOR].selector = CODE;
  gates[VECTOR].kind = 0x8E00;
  __asm__ volatile("lgdt %0; ljmp $0x08, $1f; 1: movw $0x10, %%ax; movw %%ax, %%ds; movw %%ax, %%es; movw %%ax, %%ss"
                   :
                   : "m"(globals)
                   : "eax", "memory");
  __asm__ volatile("lidt %0" : : "m"(table));
  out8(0x21, 0xFF);
  out8(0xA1, 0xFF);
  *at(0xFEE000F0) = 0x1FF;
  *at(0xFEC00000) = 0x11 + 2 * input;
  *at(0xFEC00010) = 0;
  *at(0xFEC00000) = 0x10 + 2 * input;
  *at(0xFEC00010) = 0x8000 | VECTOR; /* by level */
  __asm__ volatile("sti");
}

/* ---- the driver */

static uint32_t read_register(uint32_t offset) {
  return registers[offset / 4];
}

static void write_register(uint32_t offset, uint32_t value) {
  registers[offset / 4] = value;
}

static void start_transmitter(void) {
  write_register(TDBAL, (uint32_t)(uintptr_t)ring);
  write_register(TDLEN, sizeof ring);
  write_register(TDH, 0);
  write_register(TDT, 0);
  write_register(TCTL, 2);
}

__attribute__((noinline)) static void send(uint32_t index) {
  ring[index].address = (uint32_t)(uintptr_t)frame;
  ring[index].length = 60;
  ring[index].command = 0x09;
  ring[index].status = 0;
  __asm__ volatile("" : : : "memory");
  registers[TDT / 4] = index + 1; /* the tail */
}

static bool interrupted(uint32_t count) {
  for (uint32_t i = 0; i < 200000000 && interrupts < count; i++) __asm__ volatile("sti; pause");
  return interrupts >= count;
}

__attribute__((used)) static void drive(void) {
  uint32_t slot = 1;
  while (slot < 32 && config_read(slot, 0) != 0x100E8086) slot++;
  if (slot == 32) {
    print("no adapter\n");
    return;
  }
  config_write(slot, 4, 6);
  registers = at(config_read(slot, 0x10) & ~15u);
  uint32_t input = config_read(slot, 0x3C) & 0xFF;
  print_number("window ", (uint32_t)(uintptr_t)registers);
  print_number("status ", read_register(8));
  print_number("none ", read_register(0x10));
  take_interrupts(config_read(0, 0) == 0x29C08086 ? 20 + slot % 4 : input);
  start_transmitter();
  read_register(ICR);
  write_register(IMS, TXDW);
  for (uint32_t i = 0; i < 3; i++) {
    send(i);
    if (!interrupted(i + 1)) print("no interrupt\n");
  }
  print_number("interrupts ", interrupts);
  print_number("causes ", causes);
  print_number("done ", ring[2].status);
  write_register(IMC, TXDW);
}

__attribute__((noreturn, used)) static void run(void) {
  drive();
  out8(0xCF9, 6); /* the machine's reset */
  for (;;) __asm__ volatile("hlt");
}

__asm__(".globl _start\n_start: mov $stack + 16384, %esp\n cld\n jmp run\n");
