/* Bunjelav: Intel's 82540EM as a model that can be stepped backwards, as a library for C and C++.

   A machine is an adapter with its guest's memory and a journal of its latest events. A driver, or a virtual machine,
   reads and writes its registers, hands it frames, and takes frames from its wire; the adapter reads and writes the
   driver's own memory, which is attached; then events are taken back, one by one, and one looks.

       static uint8_t ram[65536];
       const em_region region = {0, sizeof ram, ram};
       const em_ram all = {NULL, NULL, NULL, &region, 1};
       const uint8_t mac[6] = {0x52, 0x54, 0x00, 0x12, 0x34, 0x56};
       em_machine m = EM_NO_MACHINE;
       must(em_make(&m, sizeof ram, 1048576, mac));
       must(em_attach(&m, &all));
       must(em_write(&m, 0x2818, tail));         the driver wrote descriptors to ram, and gives them to the adapter
       must(em_arrive(&m, frame, length, &event));
       must(em_run_rx(&m, SIZE_MAX, &steps));    the frame lies in ram
       em_free(&m);

   where must is of the caller:

       static void must(em_code code) {
         if (code == EM_OK) return;
         puts(em_strerror(code));
         exit(1);
       }

   WHAT EACH CALL GIVES. EM_OK, which is 0, or the number of the reason why it did nothing (enum em_code), whose text
   em_strerror gives; the compiler warns where that is not looked at. A call that was refused has changed nothing:
   neither the machine, nor what a pointer points to. Only the calls that fill room also tell how much they need, and
   em_run_rx, em_run_tx and em_sync_in tell how many steps or writes went well before the one that was refused; these
   stay. Of attached memory its own section says what a refusal leaves. What a call tells goes through its last
   pointers.

   WHAT MUST HOLD. The proofs of the library rest on this, and nothing checks it:

   - Each pointer is valid, aligned for its type, and not null; it points to as many elements as its type or the length
     beside it says. A length may be 0: nothing is then read or written there, but the pointer is still not null.
   - What two pointers of one call are to write, or one is to write and another to read, does not overlap; nor does it
     overlap the handle.
   - A handle begins as EM_NO_MACHINE. From then on only this library writes it. It is not copied, moved by memcpy while
     its copy is used, or written by hand; it may be moved as a whole, where its old place is then not used again.
   - A call that takes the handle as `em_machine *` is the only one with it while it lasts. Calls that take it as
     `const em_machine *` look: they write neither the handle nor the machine, and any number of them may be made with one
     handle at once, each in a thread of its own. Between a look and a call that is none a lock, a start, a join or the like
     orders the two, whatever the threads. Machines share nothing: there may be any number, with as many threads.
   - No call is made from a signal handler, or in a forked child of a process with threads.
   - A function of an em_ram is called in the thread of the call that it serves, and returns: it is not left by longjmp
     or an exception. It writes no octet but those that it was called for.
   - malloc, realloc and free of the process are one allocator's, and align a block of n octets to each power of two up
     to 16 that divides n. (Each C library's are.)
   - A machine holds memory until em_free.

   WHAT EACH CALL COSTS is said with it: "constant" means no loop over what the machine holds, and some ten nanoseconds.
   Calls that are events also let the oldest records go that the budget no longer holds. */
#ifndef BUNJELAV_H
#define BUNJELAV_H

#include <stdbool.h>
#include <stddef.h>
#include <stdint.h>

#ifdef __cplusplus
extern "C" {
#endif

/* The version of this header, as text, and as a number that grows: 0x010203 is 1.2.3. docs/CHANGELOG.md says what each
   changed. em_version gives that of the library. */
#define EM_VERSION "0.1.0"
#define EM_VERSION_NUMBER 0x000100

/* The compiler warns where what a call gives is not looked at (-Wno-unused-result turns that off). */
#if defined(__GNUC__)
#define EM_CHECKED __attribute__((warn_unused_result))
#else
#define EM_CHECKED
#endif

/* A part of the caller's memory: `octets` lies at the address `base` of guest memory, and has `size` octets. */
typedef struct em_region {
  uint64_t base;
  uint64_t size;
  uint8_t *octets;
} em_region;

/* The caller's own memory, as em_attach takes it: both functions, or neither and at least one region. An address is the
   guest's, as a driver writes it into RDBAL and descriptors. */
typedef struct em_ram {
  void *context;             /* handed to both functions */
  /* Copies octets at an address out; true where it could */
  bool (*read)(void *context, uint64_t address, uint8_t *out, size_t length);
  /* Makes octets at an address these; true where it could */
  bool (*write)(void *context, uint64_t address, const uint8_t *octets, size_t length);
  const em_region *regions;  /* a table, where there are no functions; the first that has an address counts */
  size_t count;
} em_ram;

/* A handle: it holds a machine, or none. Its fields are the library's own. */
typedef struct em_machine {
  bool made;
  void *held;
  em_ram ram;
  uint32_t state;
} em_machine;

/* What a handle is before em_make and after em_free: `em_machine m = EM_NO_MACHINE;`. */
#define EM_NO_MACHINE \
  { false, NULL, { NULL, NULL, NULL, NULL, 0 }, 0 }

/* Why a call did nothing. The numbers stay as they are, and a later version may give others. */
typedef enum em_code {
  EM_OK = 0,           /* nothing refused it */
  EM_NO_REGISTER = 1,  /* no register lies at the offset */
  EM_RANGE = 2,        /* the octets leave guest memory */
  EM_LENGTH = 3,       /* a memory write outside 1 to 16,384 octets, a frame outside 14 to 20,000, a watch outside 1 to
                          16, or a copy of guest memory of another size */
  EM_DMA_RANGE = 4,    /* a descriptor, or the buffer that it names, leaves guest memory */
  EM_EXTENDED = 5,     /* a transmit descriptor is extended (DEXT) */
  EM_TOO_LONG = 6,     /* the buffers of one frame would hold more than 16,380 octets together */
  EM_MEMORY = 9,       /* malloc or realloc gave no memory */
  EM_BUDGET = 24,      /* a budget outside 65,536 to 16,777,216 */
  EM_NOT_MADE = 26,    /* the handle holds no machine */
  EM_MADE_ALREADY = 27, /* the handle holds a machine already */
  EM_SIZE = 28,        /* guest memory can not have that size, or not lie there */
  EM_NO_FRAME = 29,    /* so many frames were not sent */
  EM_ROOM = 30,        /* what is told has more octets than there is room for */
  EM_NO_EVENT = 31,    /* the journal does not hold so many events */
  EM_NO_CHANGE = 32,   /* no event of the journal changed what is watched */
  EM_NO_WATCH = 33,    /* there is no such kind of watch */
  EM_NO_NAME = 34,     /* no register has the name */
  EM_NO_REFUSAL = 35,  /* no refusal has the number */
  EM_NO_RING = 36,     /* there is no ring of the number: they are of enum em_rings */
  EM_NO_DESCRIPTOR = 37, /* the ring has no descriptor of the index */
  EM_BUSY = 38,        /* a function of the attached memory made the call */
  EM_UNREAD = 39,      /* the attached memory was not read: its function gave false, or no region has all octets */
  EM_UNWRITTEN = 40,   /* the attached memory was not written: likewise */
  EM_NO_RAM = 41,      /* what is to be attached has neither both functions nor a region */
  EM_BEGUN = 42,       /* the machine has performed an event: a run is kept from its first one on */
  EM_RECORDED = 43,    /* the run is kept already */
  EM_FILE = 44,        /* the file was not opened, not read, or not written */
  EM_UNRECORDED = 45,  /* the run is not kept */
  EM_WIDTH = 46,       /* an access of a register that has not four octets */
  EM_NOT_OPEN = 47,    /* the handle holds no capture */
  EM_OPEN_ALREADY = 48, /* the handle holds a capture already */
  EM_CAPTURE_END = 49, /* no frame of the capture is left, and it ends there */
  EM_CAPTURE_MAGIC = 50, /* the capture, or a section of it, begins with no number that is known */
  EM_CAPTURE_VERSION = 51, /* the capture, or a section of it, has a version that is not known */
  EM_CAPTURE_CUT = 52, /* the capture ends within a header, a record or a block */
  EM_CAPTURE_BLOCK = 53, /* a block of the capture has a wrong length */
  EM_CAPTURE_LINK = 54, /* the capture has another link type than Ethernet */
  EM_CAPTURE_LENGTH = 55, /* a packet has more octets than the snap length or its block allows */
  EM_CAPTURE_INTERFACE = 56, /* a packet is of an interface that its section has not described */
  EM_NO_PROFILE = 57, /* there is no profile of the number: they are of enum em_profiles */
  EM_STORED_MAGIC = 58, /* the octets of em_load do not begin with BUNJELAV */
  EM_STORED_VERSION = 59, /* they have a version that is not known */
  EM_STORED_LENGTH = 60, /* they are not as many as they say */
  EM_STORED_SUM = 61,  /* they have another check sum than they say */
  EM_STORED_VALUE = 62, /* no machine is stored so */
  EM_CODE_WIDE = 0x7FFFFFFF /* none: it gives the type 32 bits, in which numbers of later versions have room */
} em_code;

/* What an event was, and what came of it. The numbers stay as they are. */
typedef enum em_kind {
  EM_READ = 1,          /* a read of a register */
  EM_WRITE = 2,         /* a write of a register */
  EM_POKE = 3,          /* a write of octets to guest memory */
  EM_LINK_UP = 4,       /* the link went up, or was up */
  EM_LINK_DOWN = 5,     /* the link went down, or was down */
  EM_RX_IDLE = 6,       /* a step of the receive engine that had nothing to do */
  EM_WROTE = 7,         /* a step of the receive engine that wrote a piece of a frame */
  EM_TX_IDLE = 8,       /* a step of the transmit engine that had nothing to do */
  EM_FETCHED = 9,       /* a step of the transmit engine that fetched a buffer and sent no frame */
  EM_SENT = 10,         /* a step of the transmit engine that sent a frame */
  EM_STORED = 11,       /* a frame that arrived, and lies in the FIFO */
  EM_DOWN = 12,         /* a frame that was dropped: the link is down */
  EM_DISABLED = 13,     /* a frame that was dropped: RCTL.EN is clear */
  EM_REJECTED = 14,     /* a frame that was dropped: no filter accepts its destination, or its VLAN */
  EM_UNDERSIZE = 15,    /* a frame that was dropped: it is shorter than a frame can be */
  EM_OVERSIZE = 16,     /* a frame that was dropped: it is longer than RCTL.LPE allows */
  EM_MISSED = 17        /* a frame that was dropped: the FIFO has no room for it */
} em_kind;

/* An event that was performed. */
typedef struct em_note {
  uint64_t tag;    /* what the caller called it by */
  uint64_t at;     /* of an access the register's offset, of a memory write its address, of a step of an engine that was
                      not idle its descriptor's address; else 0 */
  uint32_t length; /* octets: of an access 4, of a memory write those written, of a frame that arrived or was sent the
                      frame's; else 0 */
  uint32_t value;  /* of a read the value that it gave, of a write the value written, of a step of an engine that was
                      not idle the descriptor's index; else 0 */
  uint32_t kind;   /* an em_kind */
  uint32_t octets; /* how many octets a step of an engine wrote into its buffer or read there; else 0 */
  uint64_t buffer; /* where in guest memory they lie; else 0, as of no octets */
} em_note;

/* Room in which each frame that a machine sends fits: 16,380 gathered octets and a tag. */
#define EM_MOST_SENT 16384

/* With em_let_go_always a machine keeps the octets of at most this many frames besides those that em_back can reach. */
#define EM_MOST_KEPT 1024

/* ---- making and freeing */

/* Makes a machine as after a reset: `memory` octets of guest memory, all zero; the link down; this Ethernet address in
   the EEPROM, with its checksum; a journal that holds as many of the latest events as `budget` octets of cost allow
   (each costs at least 32). Refused as EM_MADE_ALREADY, EM_SIZE, EM_BUDGET or EM_MEMORY, the first that holds. It takes
   3.75 times the budget of memory and 300 KB, which the host's system gives by pages, as they are used; and guest memory
   by pages, as they are written. */
EM_CHECKED em_code em_make(em_machine *machine, uint64_t memory, uint64_t budget, const uint8_t mac[6]);

/* The same with the 64 words of the EEPROM. */
EM_CHECKED em_code em_make_with_eeprom(em_machine *machine, uint64_t memory, uint64_t budget, const uint16_t words[64]);

/* The same two with guest memory of `memory` octets from the address `base` on. Both are multiples of 4,096, `memory`
   is not 0, and memory ends at 2^40 at most: else EM_SIZE. Addresses outside are refused as EM_RANGE and EM_DMA_RANGE,
   as ever. A new memory of 1 TiB takes less than 100 KiB, and more as pages are written. */
EM_CHECKED em_code em_make_at(em_machine *machine, uint64_t base, uint64_t memory, uint64_t budget,
                              const uint8_t mac[6]);
EM_CHECKED em_code em_make_at_with_eeprom(em_machine *machine, uint64_t base, uint64_t memory, uint64_t budget,
                                          const uint16_t words[64]);

/* Which registers an adapter has, and what their accesses do (docs/device.md). A machine keeps the profile that it is made
   of. The numbers stay as they are. */
typedef enum em_profiles {
  EM_PROFILE_TABLE = 0,  /* what a polled driver in user space needs */
  EM_PROFILE_ADAPTER = 1 /* what the drivers of operating systems need besides: EECD, MDIC and others */
} em_profiles;

/* The same two as em_make_at of a profile of enum em_profiles; em_make and the others make a machine of EM_PROFILE_TABLE.
   Refused as EM_MADE_ALREADY, EM_NO_PROFILE, EM_SIZE, EM_BUDGET or EM_MEMORY, the first that holds. */
EM_CHECKED em_code em_make_as(em_machine *machine, uint32_t profile, uint64_t base, uint64_t memory, uint64_t budget,
                              const uint8_t mac[6]);
EM_CHECKED em_code em_make_as_with_eeprom(em_machine *machine, uint32_t profile, uint64_t base, uint64_t memory,
                                          uint64_t budget, const uint16_t words[64]);

/* The number of the profile that the machine is of. Constant. */
EM_CHECKED em_code em_profile(const em_machine *machine, uint32_t *profile);

/* Makes a machine that is equal to the one that `machine` holds, in the handle `copy`, which holds none: in all that calls
   tell of it; in its journal, so that it goes back as far and to the same states, with the same notes; in the tag of the
   next events, and in how far em_wire_next has come. From then on neither knows what becomes of the other: the copy can
   go back and be looked at while the first one goes on.
   The copy's guest memory is its own, with the octets that em_peek tells of the machine. Memory that is attached to
   `machine` is not attached to the copy, and where the run of `machine` is kept, that of the copy is not.
   Refused as EM_MADE_ALREADY, EM_NOT_MADE or EM_MEMORY, the first that holds, and nothing is left of a copy then; and as
   EM_BUSY within a function of memory that is attached to what `copy` holds. Cost: the copy takes as much memory as the
   machine has, and the time to copy it: the journal's octets, records and notes, and the pages that were written. */
EM_CHECKED em_code em_copy(const em_machine *machine, em_machine *copy);

/* Writes the machine down as octets, of which em_load makes it again, in another process or on another host: all that
   calls tell of it but its journal with the notes, and the tag; and how far em_wire_next has come. Guest memory is as
   em_peek tells it; memory that is attached is the caller's to keep. `length` tells how many octets these are: 2 KB,
   the frames that wait and that were sent, an octet for each page of guest memory, and the 4,096 of each page that is
   not zero. Where `room` is too small it is refused as EM_ROOM, and `length` is told all the same; else as EM_MEMORY.
   docs/library.md has the form, in which a machine is spelled in one way. Cost: memory for as many octets while the
   call lasts, and to copy them twice. */
EM_CHECKED em_code em_store(const em_machine *machine, uint8_t *out, size_t room, size_t *length);

/* Makes the machine that em_store has written down as these octets; em_store would tell the same of it. Its journal is
   empty, and of the same budget: em_back goes back to where it was loaded, and no further. Its tag is 0, no memory is
   attached, em_let_go_always is off, and its run can't be kept or saved (EM_BEGUN): no line makes what it begins with.
   The octets may come from anywhere. Refused as EM_MADE_ALREADY, EM_STORED_MAGIC, EM_STORED_VERSION, EM_STORED_LENGTH
   or EM_STORED_SUM, the first that holds, or else as EM_STORED_VALUE or EM_MEMORY. Cost: that of em_make and of
   em_store. */
EM_CHECKED em_code em_load(em_machine *machine, const uint8_t *octets, size_t length);

/* Frees the machine that the handle holds, if it holds one; then it holds none, and may be made again. Cost: the
   journal's records, and the pages that were written. */
void em_free(em_machine *m);

/* ---- registers; constant, but for a write of CTRL that resets */

/* The driver reads the register at an offset in octets (a multiple of 4, as the manual's tables have it). */
EM_CHECKED em_code em_read(em_machine *machine, uint32_t offset, uint32_t *value);

/* The driver writes a register. */
EM_CHECKED em_code em_write(em_machine *machine, uint32_t offset, uint32_t value);

/* The same two by the number of octets that an access has, as the callbacks of virtual machines give it: of 4 octets they
   are em_read, of which `value` has the 32 bits, and em_write of the lowest 32 bits of `value`. Registers are accessed by
   words of 32 bits: any other number of octets is refused as EM_WIDTH, before anything else is looked at. */
EM_CHECKED em_code em_read_sized(em_machine *machine, uint32_t offset, uint32_t octets, uint64_t *value);
EM_CHECKED em_code em_write_sized(em_machine *machine, uint32_t offset, uint32_t octets, uint64_t value);

/* What a read would give. It is no event, and clears nothing. */
EM_CHECKED em_code em_look(const em_machine *machine, uint32_t offset, uint32_t *value);

/* A register, and what a read of it would give. */
typedef struct em_register {
  uint32_t offset;
  uint32_t value;
} em_register;

/* All registers that are not zero, by offset: at most EM_REGISTERS of them. Where `room` is too small it is refused as
   EM_ROOM, and `count` tells how much is needed. It is no event. The cost is that of some thousand looks. */
#define EM_REGISTERS 392
EM_CHECKED em_code em_registers(const em_machine *machine, em_register *out, size_t room, size_t *count);

/* ---- rings; constant */

typedef enum em_rings {
  EM_RX_RING = 1, /* the receive ring */
  EM_TX_RING = 2  /* the transmit ring */
} em_rings;

/* A ring, as its registers set it up. */
typedef struct em_ring_setup {
  uint64_t base;    /* where descriptor 0 lies */
  uint32_t count;   /* how many descriptors it has */
  uint32_t head;    /* RDH or TDH */
  uint32_t tail;    /* RDT or TDT */
  uint32_t buffer;  /* how many octets each buffer of the receive ring has, by RCTL.BSIZE and BSEX; else 0 */
  uint32_t enabled; /* 1 where RCTL.EN or TCTL.EN is set; else 0 */
} em_ring_setup;

/* How the registers set a ring of enum em_rings up. It is no event. Refused as EM_NO_RING. */
EM_CHECKED em_code em_ring(const em_machine *machine, uint32_t side, em_ring_setup *setup);

/* A descriptor of a ring. */
typedef struct em_descriptor {
  uint8_t octets[16]; /* as it lies in guest memory */
  uint32_t adapters;  /* 1 where it is the adapter's: from the head up to but not the tail, going round. Else 0: it is
                         the driver's, and so is each where the head or the tail stands past the last descriptor */
} em_descriptor;

/* The descriptor at an index of a ring, the first at 0. It is no event. Refused as EM_NO_RING, as EM_NO_DESCRIPTOR where
   the ring has not so many, and as EM_RANGE where it leaves guest memory. */
EM_CHECKED em_code em_ring_descriptor(const em_machine *machine, uint32_t side, uint32_t index,
                                      em_descriptor *descriptor);

/* ---- guest memory; the cost is that of copying the octets */

/* The driver writes 1 to 16,384 octets. Where memory is attached they go there too (else EM_UNWRITTEN). */
EM_CHECKED em_code em_poke(em_machine *machine, uint64_t address, const uint8_t *octets, size_t length);

/* Copies octets out; any number of them. It is no event. */
EM_CHECKED em_code em_peek(const em_machine *machine, uint64_t address, uint8_t *out, size_t length);

/* ---- the caller's own memory

   From em_attach on the adapter works on the caller's memory, in each call that is an event. No call compares or copies
   anything but the octets that a step reads and writes:

   - A step of an engine (em_rx_step, em_tx_step, em_run_rx, em_run_tx) brings over what it reads, and what lies where
     it will write. Where that differs from what the machine has, it becomes a memory write, from the first octet that
     differs to the last: an event under the tag at hand, which em_event tells and em_last_change finds. Then it is
     performed, and what it wrote goes out: first the buffer, then the descriptor's last 8 octets or its status octet,
     and RDH or TDH is moved for whoever reads it after the call. Into a region the 8 octets go as one word where they
     are aligned: who sees DD there sees the buffer too. An idle step touches nothing.
   - em_poke writes to both.
   - em_back puts back what the steps among the events overwrote, the newest first: the caller's octets become what they
     were before the step, also those that another wrote there since. What software wrote stays, by em_poke too: it is
     not the adapter's, and the next step brings it again. So the same steps made again come to the same.
   - All other calls leave the caller's memory alone: an access of a register costs what it costs without it.

   The machine's own copy of guest memory has what was brought and written. em_peek, em_ring_descriptor and watches of
   octets look at that copy. Where more is to be seen there, em_sync_in_range brings it.

   A descriptor or a buffer that leaves guest memory is refused as ever, and not asked for. Where a function gives false,
   or no region has the octets, the call is refused as EM_UNREAD or EM_UNWRITTEN. Of a step and of em_poke the machine is
   then as it was, as after each refused step: what was brought for it is taken back. (The oldest events of a full journal
   may be gone all the same, since what is taken back had pushed them out.) What the caller's memory got before the
   refused write stays there: the buffer, where the descriptor is refused. em_run_rx and em_run_tx keep the steps before.
   em_back stops: `done` counts the step whose octets were refused, too.

   Within a function of an em_ram no event can come between: each call that takes the handle as `em_machine *` is refused
   as EM_BUSY, and em_free does nothing. A call that takes it as `const em_machine *` is answered.

   Another thread may use the caller's memory meanwhile, as with a real adapter: any octets but those that a step needs, or
   that a step back puts back, while the call lasts. DD it may look at by an atomic load all the time. */

/* Attaches the caller's memory, in the place of other memory that was; `ram` is copied, its context and its table of
   regions are used until then. Nothing is brought over. Refused as EM_BUSY, EM_NOT_MADE or EM_NO_RAM, the first that
   holds. Constant. */
EM_CHECKED em_code em_attach(em_machine *machine, const em_ram *ram);

/* From now on guest memory is the machine's own again, as it has it. em_free does the same. Refused as EM_BUSY or
   EM_NOT_MADE. Constant. */
EM_CHECKED em_code em_detach(em_machine *machine);

/* What the next step of an engine of enum em_rings reads and writes, by what the machine has: a range of no octets, at 0,
   where there are less than two. Of receiving: the descriptor is read; the piece in its buffer and the descriptor's last
   8 octets are written. Of transmitting: the descriptor and its buffer are read; its status octet is written where RS is
   set. An idle step, and one whose descriptor leaves memory, needs nothing. What is refused for another cause reads its
   descriptor. It is no event. Refused as EM_NO_RING. Constant. */
typedef struct em_range {
  uint64_t address;
  uint64_t length;
} em_range;
EM_CHECKED em_code em_ring_needs(const em_machine *machine, uint32_t side, em_range reads[2], em_range writes[2]);

/* What the event at k wrote, as em_event counts: of a receive step the piece in its buffer and the descriptor's last 8
   octets, of a transmit step its status octet, of a memory write its octets. It is no event. Refused as EM_NO_EVENT.
   Constant. */
EM_CHECKED em_code em_written(const em_machine *machine, size_t k, em_range written[2]);

/* ---- guest memory and a copy of it; these never touch attached memory */

/* Makes `ram` what guest memory is, after events and after steps back, whatever `ram` held: what a driver wrote there
   and em_sync_in has not brought in since is written over. An octet that is the same already is not written. Refused as
   EM_LENGTH where `size` is not the size of guest memory. The cost is that of copying and comparing all pages, and in
   each page of 4,096 octets that differs of comparing its octets one by one. */
EM_CHECKED em_code em_sync_out(const em_machine *machine, uint8_t *ram, size_t size);

/* Makes guest memory what `ram` is, by one memory write in each page of 4,096 octets that differs, the lowest address
   first: from the page's first octet that differs to its last, and so also what is the same between them. Each write is
   an event. What the adapter wrote and em_sync_out has not copied since is written over. (A driver with memory of its own
   attaches it, and wants neither.) `writes` tells how many were made. Refused as EM_LENGTH where `size` is not the size of guest memory: nothing is done, nor told. Refused as
   EM_MEMORY where the host has no memory for a write: those before it stay, and are told. The cost is that of copying
   and comparing all pages, and of the writes. */
EM_CHECKED em_code em_sync_in(em_machine *machine, const uint8_t *ram, size_t size, size_t *writes);

/* Makes `out` what guest memory is from an address on. An octet that is the same already is not written. Refused as
   EM_RANGE. The cost is that of copying and comparing so many octets. */
EM_CHECKED em_code em_sync_out_range(const em_machine *machine, uint64_t address, uint8_t *out, size_t length);

/* Makes guest memory what `octets` are from an address on, by one memory write from the first octet that differs to the
   last, or by none; `writes` tells how many. Refused as EM_RANGE, as EM_LENGTH above 16,384 octets, or as EM_MEMORY, the
   first that holds. */
EM_CHECKED em_code em_sync_in_range(em_machine *machine, uint64_t address, const uint8_t *octets, size_t length,
                                    size_t *writes);

/* The address of guest memory's first octet. Constant. */
EM_CHECKED em_code em_memory_base(const em_machine *machine, uint64_t *base);

/* How many octets guest memory has. Constant. */
EM_CHECKED em_code em_memory_size(const em_machine *machine, uint64_t *size);

/* ---- the wire, the link, and the engines; the cost is that of copying the frame, or its piece */

/* A frame of 14 to 20,000 octets arrives, without its FCS; the event tells what became of it: EM_STORED, or why it was
   dropped. */
EM_CHECKED em_code em_arrive(em_machine *machine, const uint8_t *frame, size_t length, em_note *event);

/* The link goes up, or down. Constant. */
EM_CHECKED em_code em_set_link(em_machine *machine, bool up);

/* The receive engine handles one descriptor: EM_RX_IDLE, or EM_WROTE with the descriptor's index. */
EM_CHECKED em_code em_rx_step(em_machine *machine, em_note *event);

/* The transmit engine handles one descriptor: EM_TX_IDLE, or EM_FETCHED or EM_SENT with the descriptor's index. */
EM_CHECKED em_code em_tx_step(em_machine *machine, em_note *event);

/* An engine steps until a step is idle or refused, and at most n times that are neither; `done` tells how many those
   were. An idle step is an event too. The cost is that of the steps. */
EM_CHECKED em_code em_run_rx(em_machine *machine, size_t n, size_t *done);
EM_CHECKED em_code em_run_tx(em_machine *machine, size_t n, size_t *done);

/* The interrupt line: 1 where it is asserted, else 0. Constant. */
EM_CHECKED em_code em_line(const em_machine *machine, uint32_t *level);

/* Whether frames that are sent come back: 1, else 0. A machine of the second profile loops by RCTL.LBM (bits 7:6) or by
   bit 14 of the PHY's word 0. A frame that it sends then is on the wire as any other is, and who carries the wire calls
   em_arrive with it, and lets no other frame arrive. Constant. */
EM_CHECKED em_code em_loops(const em_machine *machine, uint32_t *loops);

/* How many frames were sent since the machine was made. Constant. */
EM_CHECKED em_code em_wire_count(const em_machine *machine, size_t *count);

/* Copies a frame that was sent, the first one at 0, to the head of `out`, and tells its length. Where `room` is too
   small it is refused as EM_ROOM, and `length` tells how much is needed; EM_MOST_SENT is always enough. */
EM_CHECKED em_code em_wire_frame(const em_machine *machine, size_t index, uint8_t *out, size_t room, size_t *length);

/* Hands the next frame over that was sent: each frame once, in the order of sending, whatever em_wire_frame looked at. It
   goes to the head of `out`, and `length` tells how many octets it has. Where `room` is too small it is refused as EM_ROOM,
   `length` tells how much is needed, and the frame is the next one still; EM_MOST_SENT is always enough. Refused as
   EM_NO_FRAME where each frame was handed over. A frame that em_back takes off the wire is gone: one that is sent then is a
   new one, and is handed over too. It is no event, and nothing that em_back takes back. The cost is that of copying the
   frame. */
EM_CHECKED em_code em_wire_next(em_machine *machine, uint8_t *out, size_t room, size_t *length);

/* Lets go of the octets of the frames that were sent before all that em_back can reach, and tells how many frames these
   are: the first ones. A machine keeps every octet that it sent otherwise. They are counted as before, and the others keep
   their places, but em_wire_frame gives them a length of 0, and em_wire_next does not hand them over any more: take them
   first. The memory is used again for frames that are sent later. It is no event, and em_back does not bring the octets
   back. The cost is a look into each event that can be taken back, and that of moving the octets that stay. */
EM_CHECKED em_code em_let_go(em_machine *machine, size_t *count);

/* The same as a setting, which holds until it is changed, the machine is freed, and for each copy of it. With it
   em_wire_next lets go by itself when it has no frame to hand over: so no frame goes that was not handed over. It does so in
   lots. A machine then keeps the octets of at most EM_MOST_KEPT frames more than it has events that can be taken back, and
   those that wait to be handed over. */
EM_CHECKED em_code em_let_go_always(em_machine *machine, bool always);

/* ---- captures

   The frames that a machine sent as a file for Wireshark, and the frames of a file into a machine:

       em_pcap pcap = EM_NO_PCAP;
       must(em_pcap_open(&pcap, "frames.pcap"));
       while ((code = em_pcap_next(&pcap, octets, sizeof octets, &length, &frame)) == EM_OK) {
         must(em_arrive(&m, octets, length, &event));
         must(em_run_rx(&m, SIZE_MAX, &steps));
       }
       if (code != EM_CAPTURE_END) puts(em_strerror(code));    the capture has a fault
       em_pcap_close(&pcap);
       must(em_pcap_write(&m, "sent.pcap", NULL));

   A frame of less than 60 octets (`frame.original` and `length`) was captured before it was padded, as no wire has
   it: a caller pads it to 60 with zeros, as em_debug does, or em_arrive drops it as too short. */

/* Writes the frames that were sent, the first one first, to a file at a path: a classic pcap whose times have
   nanoseconds. `nanoseconds` has the time of each since 1970, as many as em_wire_count tells. With NULL a frame has
   the number of the line that sent it in microseconds, where the run is kept (as the command pcap of em_debug gives
   them of that file), and else its own number, from 1 on. A file is written as PATH.new and then renamed, in the place
   of one that is there: it is whole, or nothing is changed; what is no file, such as a pipe, is written to. Refused as
   EM_NOT_MADE, as EM_FILE, where errno says why (EEXIST where there is a PATH.new), or as EM_MEMORY, also where malloc
   gave none for a time while the run was kept. It takes 130 KB of memory while it writes. It is no event. */
EM_CHECKED em_code em_pcap_write(const em_machine *machine, const char *path, const uint64_t *nanoseconds);

/* A handle of a capture: it holds the frames that were not handed over, or none. Its fields are the library's own.
   What is said above of a machine's handle holds of it, and a capture and a machine share nothing. */
typedef struct em_pcap {
  bool made;
  void *held;
} em_pcap;

/* What it is before em_pcap_open and after em_pcap_close: `em_pcap capture = EM_NO_PCAP;`. */
#define EM_NO_PCAP \
  { false, NULL }

/* A frame of a capture, beside its octets. */
typedef struct em_pcap_frame {
  uint64_t nanoseconds; /* when it was captured, since 1970 began; 0 where the capture does not say it */
  uint32_t original;    /* how many octets the frame had: more than were captured, where it was cut */
  uint32_t timed;       /* 1 where the capture says when it was captured; else 0 */
} em_pcap_frame;

/* Opens the capture in the file at a path, a pcap or a pcapng of either order of octets: reads it whole, and closes
   the file. Refused as EM_OPEN_ALREADY where the handle holds one, as EM_FILE, where errno says why, or as EM_MEMORY.
   What is wrong within the file comes with its frames. It takes the file's size of memory, and that of its frames and
   64 octets for each of them, of which each is given back as it is handed over. */
EM_CHECKED em_code em_pcap_open(em_pcap *pcap, const char *path);

/* The same of the octets of a file, which are copied. */
EM_CHECKED em_code em_pcap_of(em_pcap *pcap, const uint8_t *octets, size_t length);

/* Hands the next frame over, each once, in the order of the capture: what was captured of it goes to the head of
   `out`, and `length` tells how many octets that are. Where `room` is too small it is refused as EM_ROOM, `length`
   tells how much is needed, and the frame is the next one still. Refused as EM_NOT_OPEN; behind the last frame as
   EM_CAPTURE_END, or as what is wrong with the capture there: EM_CAPTURE_MAGIC, EM_CAPTURE_VERSION, EM_CAPTURE_CUT,
   EM_CAPTURE_BLOCK, EM_CAPTURE_LINK, EM_CAPTURE_LENGTH or EM_CAPTURE_INTERFACE, each time it is asked. The cost is
   that of copying the frame. */
EM_CHECKED em_code em_pcap_next(em_pcap *pcap, uint8_t *out, size_t room, size_t *length, em_pcap_frame *frame);

/* Where in the file the fault of the capture is: the offset of the header, the record or the block that has it. It may
   be asked at any time. Refused as EM_NOT_OPEN, or as EM_CAPTURE_END where it has none. Constant. */
EM_CHECKED em_code em_pcap_fault(em_pcap *pcap, size_t *offset);

/* Closes the capture that the handle holds, if it holds one; then it holds none, and may be opened again. The cost is
   that of the frames that were not handed over. */
void em_pcap_close(em_pcap *pcap);

/* ---- back */

/* Takes the newest n events back, or as many as the journal holds, and tells how many: the machine is as it was before
   them. The cost is theirs. */
EM_CHECKED em_code em_back(em_machine *machine, size_t n, size_t *done);

/* How many events can be taken back. Constant. */
EM_CHECKED em_code em_can_go_back(const em_machine *machine, size_t *count);

/* ---- what happened, and who did it */

/* The tag of the events from now on: a line's number, a program counter. It begins as 0. Constant. */
EM_CHECKED em_code em_tag(em_machine *machine, uint64_t tag);

/* What an event of the journal was: the newest at k = 0, as many as em_can_go_back tells. Constant. */
EM_CHECKED em_code em_event(const em_machine *machine, size_t k, em_note *event);

/* What is watched. */
typedef struct em_watch {
  uint32_t kind;    /* an em_watched */
  uint32_t offset;  /* of a register; of a word of the PHY, its number: 0 to 31 */
  uint64_t address; /* of octets, where they begin */
  size_t octets;    /* and how many: 1 to 16 */
} em_watch;

typedef enum em_watched {
  EM_WATCH_REGISTER = 1, /* a register, as em_look shows it */
  EM_WATCH_OCTETS = 2,   /* octets of guest memory */
  EM_WATCH_LINE = 3,     /* the interrupt line */
  EM_WATCH_LINK = 4,     /* the link */
  EM_WATCH_FRAMES = 5,   /* how many frames lie in the FIFO */
  EM_WATCH_SENT = 6,     /* how many frames were sent */
  EM_WATCH_PHY = 7 /* a word of the PHY, as a read of it by MDIC gives it; nothing in the first profile */
} em_watched;

/* A change of what is watched. */
typedef struct em_change {
  size_t back;        /* so many steps back lead before the event that made it: em_event tells of it at back - 1 */
  uint64_t value;     /* what was seen before it, but for octets; of the line and the link 1 or 0 */
  uint8_t before[16]; /* the octets that were seen before it, and zeros behind them */
} em_change;

/* The newest change of what is watched, with nothing taken back; refused as EM_NO_CHANGE where the journal has none, and
   as EM_RANGE where the octets leave guest memory. The cost is that of a look into each record back to there. */
EM_CHECKED em_code em_last_change(const em_machine *machine, const em_watch *watch, em_change *change);

/* ---- what explains: looks at the machine at rest, with the numbers and the words that em_debug has

   A text of a struct ends in a zero octet. */

/* By which rule an event did nothing. The numbers stay as they are. */
typedef enum em_rule {
  EM_WHY_NO_RULE = 0, /* none: the event did something */
  EM_WHY_RX_DISABLED = 1, /* a receive step was idle: RCTL.EN is clear */
  EM_WHY_RX_NO_RING = 2, /* a receive step was idle: the ring has no descriptor */
  EM_WHY_RX_HEAD_PAST = 3, /* a receive step was idle: RDH is past the ring */
  EM_WHY_RX_TAIL_PAST = 4, /* a receive step was idle: RDT is past the ring */
  EM_WHY_RX_EMPTY = 5, /* a receive step was idle: RDH and RDT are the same */
  EM_WHY_RX_NO_FRAME = 6, /* a receive step was idle: no frame waits in the FIFO */
  EM_WHY_TX_DISABLED = 7, /* a transmit step was idle: TCTL.EN is clear */
  EM_WHY_TX_NO_RING = 8, /* a transmit step was idle: the ring has no descriptor */
  EM_WHY_TX_HEAD_PAST = 9, /* a transmit step was idle: TDH is past the ring */
  EM_WHY_TX_TAIL_PAST = 10, /* a transmit step was idle: TDT is past the ring */
  EM_WHY_TX_EMPTY = 11, /* a transmit step was idle: TDH and TDT are the same */
  EM_WHY_FRAME_DOWN = 12, /* a frame was dropped: the link is down */
  EM_WHY_FRAME_DISABLED = 13, /* a frame was dropped: RCTL.EN is clear */
  EM_WHY_FRAME_UNICAST = 14, /* a frame was dropped: no filter has its destination, a unicast address */
  EM_WHY_FRAME_MULTICAST = 15, /* a frame was dropped: no filter has its destination, the address of a group */
  EM_WHY_FRAME_BROADCAST = 16, /* a frame was dropped: no filter has its destination, the broadcast address */
  EM_WHY_FRAME_UNDERSIZE = 17, /* a frame was dropped: it has fewer than 64 octets with the FCS */
  EM_WHY_FRAME_OVERSIZE = 18, /* a frame was dropped: it has more octets with the FCS than RCTL.LPE allows */
  EM_WHY_FRAME_VLAN = 19, /* a frame was dropped: its VLAN is not in VFTA, or its CFI is not let pass */
  EM_WHY_FRAME_MISSED = 20, /* a frame was dropped: the FIFO has no room for it */
  EM_WHY_NO_REGISTER = 21, /* an access was refused: no register lies at the offset */
  EM_WHY_WRITE_RANGE = 22, /* a memory write was refused: its octets leave guest memory */
  EM_WHY_WRITE_LENGTH = 23, /* a memory write was refused: it has no octet, or more than 16,384 */
  EM_WHY_FRAME_LENGTH = 24, /* a frame was refused: it has fewer than 14 octets, or more than 20,000 */
  EM_WHY_RX_DESCRIPTOR = 25, /* a receive step was refused: the descriptor at RDH leaves guest memory */
  EM_WHY_RX_BUFFER = 26, /* a receive step was refused: what is to go into the descriptor's buffer leaves guest
                           memory */
  EM_WHY_TX_DESCRIPTOR = 27, /* a transmit step was refused: the descriptor at TDH leaves guest memory */
  EM_WHY_TX_EXTENDED = 28, /* a transmit step was refused: the descriptor at TDH is extended (DEXT) */
  EM_WHY_TX_TOO_LONG = 29, /* a transmit step was refused: the buffers of the frame hold more than 16,380 octets */
  EM_WHY_TX_BUFFER = 30, /* a transmit step was refused: the buffer of the descriptor at TDH leaves guest memory */
  EM_WHY_MEMORY = 31, /* an event was refused: the host gave no memory */
  EM_WHY_FRAME_CONTROL = 32, /* a frame was dropped: it is a MAC control frame, no filter has its destination, and
                                RCTL.PMCF is clear */
  EM_WHY_FRAME_CFI = 33, /* a frame was dropped: the CFI of its tag is not RCTL.CFI */
  EM_WHY_FRAME_PAUSE = 34, /* a frame was dropped: it is a pause frame, and RCTL.DPF is set */
  EM_WHY_TX_LINK_DOWN = 35 /* a transmit step was idle: the link is down, and RCTL.LBM is 0 */
} em_rule;

/* Why an event did nothing. A number that the rule has not is 0. */
typedef struct em_reason {
  uint64_t address; /* where the descriptor lies, or the octets of a memory write; the offset of an access */
  uint64_t buffer;  /* where the descriptor's buffer lies */
  uint64_t octets;  /* how many octets: of a memory write, of a frame (of one that was dropped with the FCS), of a
                       transmit descriptor */
  uint64_t most;    /* how many octets there may be at most, by a buffer or RCTL.LPE; of EM_WHY_FRAME_UNDERSIZE at
                       least; of EM_WHY_FRAME_MISSED how many frames wait */
  uint64_t base;    /* where guest memory begins, */
  uint64_t memory;  /* and how many octets it has */
  uint32_t rule;    /* an em_rule */
  uint32_t index;   /* the descriptor's index, or what RDH, RDT, TDH or TDT holds */
  uint32_t count;   /* how many descriptors the ring has */
  uint32_t value;   /* the hash of a destination, or the identifier of a VLAN */
  uint8_t to[6];    /* the destination that no filter has */
  char text[256];   /* the reason in words: "the ring is empty (RDH = RDT = 3)" */
} em_reason;

/* Why an event did nothing: a step that was idle, a frame that was dropped, or an event that was refused. `event` is
   what its call told, or em_event; `code` is what its call gave. Of a refused event the caller fills the note: as
   `kind` EM_READ, EM_WRITE or EM_POKE with the offset or the address as `at`, EM_STORED of a frame, EM_WROTE of a step
   of the receive engine, EM_FETCHED of the transmit engine. `octets` are those of the frame or of the memory write,
   which no note has; of another event there are none.

   It is asked of the machine as it is now: right behind the event, which left it as it was. It is also right as long as
   nothing that the rule goes by changed. EM_WHY_NO_RULE and an empty text say that the event did something. Constant,
   but for the 16 entries of the address filter. */
EM_CHECKED em_code em_why(const em_machine *machine, const em_note *event, uint32_t code, const uint8_t *octets,
                          size_t length, em_reason *reason);

/* By which rule an access of a register has a warning. The numbers stay as they are. */
typedef enum em_warned {
  EM_WARN_BITS_DROPPED = 1, /* the register keeps only some bits of what was written */
  EM_WARN_TAIL_PAST_RING = 2, /* the tail is at the ring's count of descriptors or past it */
  EM_WARN_ENABLED_BEFORE_RING = 3, /* EN is set in RCTL or TCTL while the ring's length is 0 */
  EM_WARN_DESCRIPTOR_UNWRITTEN = 4, /* the adapter owns a descriptor that is all zeros */
  EM_WARN_STATUS_LEFT = 5, /* the adapter owns a descriptor whose status has DD */
  EM_WARN_INTERRUPTS_BEFORE_RINGS = 6, /* causes of a ring are let through while the ring's length is 0 */
  EM_WARN_READ_AGAIN = 7, /* a read of ICR gave 0, since an earlier event cleared it, and the frame still waits */
  EM_WARN_RING_OUTSIDE_MEMORY = 8, /* the adapter owns descriptors of a ring that begins at this address, and leaves guest memory */
  EM_WARN_BUFFERS_OVERLAP = 9, /* the adapter is given a receive descriptor, at this address (octets), whose buffer lies over that of another one */
  EM_WARN_TAIL_PAST_HEAD = 10, /* the tail went past the head, so that the adapter has fewer descriptors than it was given */
  EM_WARN_HEAD_WHILE_ENABLED = 11, /* the head is moved by the driver while EN is set in RCTL or TCTL */
  EM_WARN_WRITTEN_WHILE_OWNED = 12 /* octets were written that are the adapter's: of this descriptor, at this address (octets), or of its buffer */
} em_warned;

/* What a driver seems to get wrong by an access of a register. A number that the rule has not is 0. */
typedef struct em_warning {
  uint64_t address; /* where the descriptor lies, or the ring */
  uint32_t rule;    /* an em_warned */
  uint32_t offset;  /* of the register that was accessed; of EM_WARN_INTERRUPTS_BEFORE_RINGS of RDLEN or TDLEN, and of
                       EM_WARN_WRITTEN_WHILE_OWNED of RDH or TDH */
  uint32_t index;   /* the descriptor's index, or what the tail holds */
  uint32_t count;   /* how many descriptors the ring has */
  uint32_t kept;    /* the bits that the register keeps, */
  uint32_t written; /* of those that were written */
  uint32_t causes;  /* that are let through, or that were cleared */
  char text[256];   /* "warning tail-past-ring: RDT 8 is past the ring of 8, write an index below that" */
} em_warning;

/* What a driver seems to get wrong by the newest event, as the machine is behind it: a write of a register or of guest memory,
   or a read of ICR that gave 0. `count` tells how many warnings there are; the others are of the rule 0. The cost is that of a
   look at each descriptor that a write of RDT or TDT gives to the adapter, of RDT at all the adapter's for each of them, and of
   a write of guest memory at all the adapter's; of another write it is constant. */
EM_CHECKED em_code em_warnings(const em_machine *machine, em_warning warnings[10], size_t *count);

/* What is wrong with a descriptor first; 0 where nothing is. The numbers stay as they are. */
typedef enum em_trouble {
  EM_TROUBLE_OUTSIDE = 1, /* it lies outside guest memory */
  EM_TROUBLE_EXTENDED = 2, /* a transmit descriptor of the extended format (DEXT), which the adapter refuses */
  EM_TROUBLE_NO_LENGTH = 3, /* a transmit descriptor that has no octets to send */
  EM_TROUBLE_TOO_LONG = 4, /* a transmit descriptor that has more than 16,380 octets to send */
  EM_TROUBLE_BUFFER_OUTSIDE = 5, /* its buffer lies outside guest memory, or part of it does */
  EM_TROUBLE_OVER_RING = 6, /* its buffer lies over the ring's own descriptors */
  EM_TROUBLE_OVER_BUFFER = 7 /* its buffer lies over that of another descriptor of the ring */
} em_trouble;

/* A descriptor of a ring, with what it says, whose it is, and what is wrong with it. */
typedef struct em_entry {
  uint64_t address;  /* where it lies */
  uint64_t buffer;   /* where its buffer lies */
  uint32_t index;    /* its index in the ring */
  uint32_t length;   /* how many octets the adapter put into the buffer, or is to send out of it */
  uint32_t status;   /* its status octet */
  uint32_t errors;   /* of a receive descriptor its errors octet; else 0 */
  uint32_t command;  /* of a transmit descriptor its command octet; else 0 */
  uint32_t adapters; /* 1 where it is the adapter's; else 0 */
  uint32_t head;     /* 1 where the head stands here; else 0 */
  uint32_t tail;     /* 1 where the tail stands here; else 0 */
  uint32_t trouble;  /* an em_trouble, or 0 */
  uint32_t other;    /* of EM_TROUBLE_OVER_BUFFER the descriptor over whose buffer its own lies; else 0 */
  char text[256];    /* its line: ">     0  at 001000  buffer 004000  length     0  adapter" */
} em_entry;

/* The descriptor at an index of a ring, the first at 0; where it leaves guest memory only its place is known. Refused
   as EM_NO_RING or EM_NO_DESCRIPTOR. The cost is that of a look at each descriptor of the ring. */
EM_CHECKED em_code em_ring_entry(const em_machine *machine, uint32_t side, uint32_t index, em_entry *entry);

/* A ring as text, with a zero octet behind it: a line of what the registers say, and a line for each descriptor, of
   more than 64 for those around the head. `length` tells how many octets it has, without the zero. Where `room` is too
   small for both it is refused as EM_ROOM, and `length` is told all the same; else as EM_NO_RING, or EM_MEMORY. For
   each line the cost is that of a look at each descriptor of the ring. */
EM_CHECKED em_code em_ring_text(const em_machine *machine, uint32_t side, uint8_t *out, size_t room, size_t *length);

/* All that the event at k changed, as em_event counts, as text like that of em_ring_text: a line for each register, for
   octets of guest memory side by side, the interrupt line, the link, the FIFO and the wire, each with what was before
   and what is behind it. Refused as EM_NO_EVENT, EM_ROOM or EM_MEMORY. The cost is that of looks into k records for
   each register. */
EM_CHECKED em_code em_effect(const em_machine *machine, size_t k, uint8_t *out, size_t room, size_t *length);

/* What an event changed of one thing. */
typedef struct em_difference {
  uint64_t address;   /* of octets, where they lie */
  uint64_t value;     /* what was seen before the event, but for octets; of the line and the link 1 or 0 */
  uint64_t now;       /* and behind it */
  uint32_t kind;      /* an em_watched */
  uint32_t offset;    /* of a register */
  size_t octets;      /* how many octets side by side, of which the first and the last changed: 1 to 16 */
  uint8_t before[16]; /* the octets that were seen before the event, and zeros behind them */
  uint8_t after[16];  /* and behind it */
} em_difference;

/* All that the event at k changed, as em_event counts: the registers by offset, octets of guest memory by address,
   the interrupt line, the link, how many frames wait, and how many were sent. `count` tells how many these are;
   where `room` is too small for all it is refused as EM_ROOM, and `count` is told all the same; else as EM_NO_EVENT,
   or EM_MEMORY. The cost is that of em_effect. */
EM_CHECKED em_code em_differences(const em_machine *machine, size_t k, em_difference *out, size_t room, size_t *count);

/* What waits in the FIFO, and what is gathered. */
typedef struct em_fifo_state {
  uint64_t frames;   /* how many frames wait */
  uint64_t octets;   /* how many octets the first of them has; 0 where none waits */
  uint64_t gathered; /* how many octets are gathered for the next frame to be sent */
  uint32_t tagged;   /* 1 where a VLAN tag was taken out of the first frame; else 0 */
  uint32_t tag;      /* that tag; else 0 */
} em_fifo_state;

/* How many frames wait in the FIFO, what the first of them is, and how many octets are gathered. Constant. */
EM_CHECKED em_code em_fifo(const em_machine *machine, em_fifo_state *fifo);

/* How many octets have room in the FIFO now: 49,152 less those of the frames that wait, each of which counts whole until its
   last octet is in guest memory. A frame that is accepted is stored where no more of it are stored than that, and else it is
   EM_MISSED. All of a frame's octets are stored, but for the 4 of a VLAN tag that CTRL.VME has taken out: so a frame of
   `octets` octets finds room, whatever it is. A virtual machine that asks before it delivers loses none. Constant. */
EM_CHECKED em_code em_fifo_room(const em_machine *machine, size_t *octets);

/* Copies the first frame that waits to the head of `out`, and tells its length, 0 where none waits. Where `room` is too
   small it is refused as EM_ROOM, and `length` tells how much is needed: 20,000 octets at most. */
EM_CHECKED em_code em_fifo_frame(const em_machine *machine, uint8_t *out, size_t room, size_t *length);

/* Copies the octets that are gathered for the next frame to be sent, as em_fifo_frame does: EM_MOST_SENT at most. */
EM_CHECKED em_code em_gathered(const em_machine *machine, uint8_t *out, size_t room, size_t *length);

/* The FIFO as text like that of em_ring_text: how many frames wait, and the first of them. Refused as EM_ROOM or
   EM_MEMORY. */
EM_CHECKED em_code em_fifo_text(const em_machine *machine, uint8_t *out, size_t room, size_t *length);

/* ---- a run, kept as it happens

   From em_record_to on each call that is an event, each step back and each call that an event's rule refuses is written
   to a file, as a line of the script language with its answer and with where it comes from:

       # em_debug --memory 65536 --budget 1048576 --mac 525400123456
       w 2818 3 =ok @driver.c:57
       r C0 =00000004 @driver.c:61

   em_debug, em_record and em_page take the file as it is. Each line is in the file before its call returns, by one
   write(2) or by a mapping: it is there when the process dies, by whatever signal, by abort or _exit. (It does not
   survive the host's own fall.)
   A last line without its newline was cut by the end of the process, and says nothing. What was written for a step over
   attached memory stands there as its memory writes; so does what em_sync_in and em_sync_in_range wrote. A call that
   malloc stopped is a comment. Looks are not kept, nor what is refused for the handle or for attached memory: the steps
   back that undo it are.

   Where the file can no longer be written, nothing more is kept, and the machine goes on: em_recording_status tells it.
   (A limit on the size of files raises SIGXFSZ, as in any program.) */

/* Keeps what happens to the machine from now on in the file at a path, which is made, or made empty; the path is copied. It
   stays open until em_free. Refused as EM_BUSY, EM_NOT_MADE, EM_RECORDED, EM_BEGUN where the machine has performed an event
   since it was made, EM_MEMORY or EM_FILE, the first that holds; errno says why of EM_FILE. Each event costs a system call
   more then, some half a microsecond, and a frame of 1,514 octets some 2 us. It takes 50 KB of memory. */
EM_CHECKED em_code em_record_to(em_machine *machine, const char *path);

/* The same by a mapping of the file: an event costs some 70 ns more, and as much again for where it comes from. The
   file grows ahead by blanks, up to 128 KiB of them, which em_free takes off: where the process dies they stay, and say
   nothing. Where a disk is full the file does not grow, which em_recording_status tells; no store to it is SIGBUS, as
   long as no other program cuts the file.

   It has to be a regular file that can be mapped, in which no other run is kept so (errno is EWOULDBLOCK then), and of
   no file system that copies what is written anew, as btrfs and ZFS do (EOPNOTSUPP): there a full disk would be SIGBUS.
   Behind a fork only one of the two processes may use the machine. */
EM_CHECKED em_code em_record_mapped(em_machine *machine, const char *path);

/* Writes the run of a machine that was not kept to a file, as lines that play to the same machine: the events that the
   journal has, with their answers, and their tags as program counters. What was refused, or taken back, is not among them.
   Of a frame that was dropped the octets are kept nowhere: one of the same length stands there, which is dropped for the
   same reason, and does the same.

   Refused as EM_NOT_MADE, EM_BEGUN where events were taken back, or where the journal may have dropped some: it
   has all as long as they cost less than its budget by 65,536 octets; EM_MEMORY or EM_FILE, where errno says why. The
   machine stays as it is. Cost: that of a copy, of the events once more, and of their lines. */
EM_CHECKED em_code em_save(const em_machine *machine, const char *path);

/* EM_OK where the run is kept, and all that happened so far is in the file. EM_FILE where that failed: `error` tells the
   host's number of the error (errno). It is told once; from then on the run is not kept. EM_UNRECORDED where it is not.
   Constant. */
EM_CHECKED em_code em_recording_status(em_machine *machine, int *error);

/* Where the calls from now on come from: a line of a file, as `__FILE__` and `__LINE__` give it. The text is not copied: it
   has to stay until em_source or em_tag is called again, or em_free. It is written in the lines of a run that is kept, as
   ` @driver.c:57`, and else nowhere. A tag that em_tag sets later and that is not 0 stands there in its place, as a program
   counter: ` @0x5555DEADBEEF`. With NULL or an empty name nothing stands there. Constant. */
EM_CHECKED em_code em_source(em_machine *machine, const char *file, uint32_t line);

/* A handle, of which the next call comes from here: `must(em_write(EM_HERE(&m), RDT, tail))`. */
static inline em_machine *em_from(em_machine *machine, const char *file, uint32_t line) {
  em_code code = em_source(machine, file, line);
  (void)code; /* (the call that follows is refused for the same) */
  return machine;
}
#define EM_HERE(machine) em_from((machine), __FILE__, __LINE__)

/* The calls of these names, from here. (A word of enum em_kind, as EM_READ, stays that where no bracket follows it.) */
#define EM_READ(machine, offset, value) em_read(EM_HERE(machine), (offset), (value))
#define EM_WRITE(machine, offset, value) em_write(EM_HERE(machine), (offset), (value))
#define EM_READ_SIZED(machine, offset, octets, value) em_read_sized(EM_HERE(machine), (offset), (octets), (value))
#define EM_WRITE_SIZED(machine, offset, octets, value) em_write_sized(EM_HERE(machine), (offset), (octets), (value))
#define EM_POKE(machine, address, octets, length) em_poke(EM_HERE(machine), (address), (octets), (length))
#define EM_SYNC_IN(machine, ram, size, writes) em_sync_in(EM_HERE(machine), (ram), (size), (writes))
#define EM_SYNC_IN_RANGE(machine, address, octets, length, writes) \
  em_sync_in_range(EM_HERE(machine), (address), (octets), (length), (writes))
#define EM_ARRIVE(machine, frame, length, event) em_arrive(EM_HERE(machine), (frame), (length), (event))
#define EM_SET_LINK(machine, up) em_set_link(EM_HERE(machine), (up))
#define EM_RX_STEP(machine, event) em_rx_step(EM_HERE(machine), (event))
#define EM_TX_STEP(machine, event) em_tx_step(EM_HERE(machine), (event))
#define EM_RUN_RX(machine, n, done) em_run_rx(EM_HERE(machine), (n), (done))
#define EM_RUN_TX(machine, n, done) em_run_tx(EM_HERE(machine), (n), (done))
#define EM_BACK(machine, n, done) em_back(EM_HERE(machine), (n), (done))

/* ---- names, of the registers of either profile; no machine is needed */

/* The manual's name of the register at an offset, with a zero octet behind it: MTA[5], RAL0. None has more than 9
   letters; `length` tells how many, without the zero. Where `room` is too small for both it is refused as EM_ROOM, and
   `length` is told all the same. Constant. */
EM_CHECKED em_code em_name(uint32_t offset, uint8_t *out, size_t room, size_t *length);

/* The offset of the register that has this name, in either case of its letters. The cost is some hundred comparisons. */
EM_CHECKED em_code em_find(const uint8_t *name, size_t length, uint32_t *offset);

/* A bit or a field of a register: of a value it holds (value & mask) / lowest. */
typedef struct em_field_row {
  uint32_t mask;   /* its bits; 0 behind the register's last */
  uint32_t lowest; /* the lowest of them */
  char name[16];   /* the manual's name: "EN", "BSIZE" */
} em_field_row;

/* The bits and fields of the register at an offset, from the lowest on, the first at k = 0; behind the last one the
   mask is 0 and the name empty. A register that is one number, such as RDT, has none. Constant. */
EM_CHECKED em_code em_field(uint32_t offset, size_t k, em_field_row *field);

/* The name of the register at an offset, a value, and the bits and fields that are set in it, with a zero octet behind
   them: "RCTL 00008002 EN BAM BSIZE=2048". None has more than 255 octets; `length` tells how many, without the zero.
   Where `room` is too small for both it is refused as EM_ROOM, and `length` is told all the same. Constant. */
EM_CHECKED em_code em_value_text(uint32_t offset, uint32_t value, uint8_t *out, size_t room, size_t *length);

/* The name of a refusal, and a sentence, with a zero octet behind it: "Range: the octets leave guest memory". None has
   more than 80 octets; `length` tells how many, without the zero. Where `room` is too small for both it is refused as
   EM_ROOM, and `length` is told all the same. Constant. */
EM_CHECKED em_code em_refusal(uint32_t refusal, uint8_t *out, size_t room, size_t *length);

/* What em_refusal gives, as a text that stays as long as the library does; of EM_OK and of numbers that are none there
   is one too. */
const char *em_strerror(em_code code);

/* The version of the library, as EM_VERSION is that of the header. */
const char *em_version(void);

#ifdef __cplusplus
}
#endif

#endif
