/* A Linux module that is a driver of the adapter and nothing else: it sends a frame when it is loaded, and takes its
   interrupt. docs/guest.md says how it is built, loaded and asked.

       echo 'obj-m := sender.o' > Makefile
       make -C /lib/modules/VERSION/build M=$PWD modules */
#include <linux/dma-mapping.h>
#include <linux/interrupt.h>
#include <linux/module.h>
#include <linux/pci.h>

enum {
  ICR = 0x00C0,
  IMS = 0x00D0,
  IMC = 0x00D8,
  TCTL = 0x0400,
  TDBAL = 0x3800,
  TDBAH = 0x3804,
  TDLEN = 0x3808,
  TDH = 0x3810,
  TDT = 0x3818,
  TXDW = 1,
  DESCRIPTORS = 8,
  FRAME = 60
};

struct descriptor {
  __le64 address;
  __le16 length;
  u8 checksum, command, status, start;
  __le16 special;
};

static void __iomem *registers;
static struct descriptor *ring;
static u8 *frame;
static dma_addr_t ring_at, frame_at;

static irqreturn_t on_interrupt(int irq, void *whose) {
  u32 causes = readl(registers + ICR);
  if (causes == 0) return IRQ_NONE;
  pr_info("sender: interrupted, causes %08X, status %02X\n", causes, ring[0].status);
  return IRQ_HANDLED;
}

static noinline void send(void) {
  memset(frame, 0xFF, 6);
  memcpy(frame + 6, "\x52\x54\x00\x12\x34\x56\x88\xB5sender", 14);
  ring[0].address = cpu_to_le64(frame_at);
  ring[0].length = cpu_to_le16(FRAME);
  ring[0].command = 0x09;
  writel(1, registers + TDT); /* the tail */
}

static int probe(struct pci_dev *device, const struct pci_device_id *id) {
  int failed = pcim_enable_device(device);
  if (failed) return failed;
  failed = pcim_iomap_regions(device, 1, "sender");
  if (failed) return failed;
  registers = pcim_iomap_table(device)[0];
  pci_set_master(device);
  ring = dmam_alloc_coherent(&device->dev, DESCRIPTORS * sizeof *ring, &ring_at, GFP_KERNEL);
  frame = dmam_alloc_coherent(&device->dev, FRAME, &frame_at, GFP_KERNEL);
  if (!ring || !frame) return -ENOMEM;
  failed = devm_request_irq(&device->dev, device->irq, on_interrupt, IRQF_SHARED, "sender", device);
  if (failed) return failed;
  writel(lower_32_bits(ring_at), registers + TDBAL);
  writel(upper_32_bits(ring_at), registers + TDBAH);
  writel(DESCRIPTORS * sizeof *ring, registers + TDLEN);
  writel(0, registers + TDH);
  writel(0, registers + TDT);
  writel(2, registers + TCTL);
  writel(TXDW, registers + IMS);
  send();
  return 0;
}

static void remove(struct pci_dev *device) {
  writel(TXDW, registers + IMC);
}

static const struct pci_device_id adapters[] = {{PCI_DEVICE(0x8086, 0x100E)}, {}};
MODULE_DEVICE_TABLE(pci, adapters);

static struct pci_driver sender = {.name = "sender", .id_table = adapters, .probe = probe, .remove = remove};
module_pci_driver(sender);
MODULE_DESCRIPTION("A driver that sends one frame");
MODULE_LICENSE("GPL");
