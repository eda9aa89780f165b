/* The texts of the refusals, and the version.

   Written by bindings/tables.py, of the crate em_c: change it there, and run that. */
#include "bunjelav.h"

const char *em_version(void) { return EM_VERSION; }

const char *em_strerror(em_code code) {
  switch (code) {
    case EM_OK: return "Ok: nothing refused it";
    case EM_NO_REGISTER: return "NoRegister: no register lies at the offset";
    case EM_RANGE: return "Range: the octets leave guest memory";
    case EM_LENGTH: return "Length: too few octets, or too many";
    case EM_DMA_RANGE: return "DmaRange: a descriptor or its buffer leaves guest memory";
    case EM_EXTENDED: return "Extended: a transmit descriptor has DEXT";
    case EM_TOO_LONG: return "TooLong: a frame's buffers hold more than 16,380 octets together";
    case EM_MEMORY: return "Memory: the host gave no memory";
    case EM_BUDGET: return "Budget: the budget lies outside 65,536 to 16,777,216";
    case EM_NOT_MADE: return "NotMade: the handle holds no machine";
    case EM_MADE_ALREADY: return "MadeAlready: the handle holds a machine already";
    case EM_SIZE: return "Size: guest memory can not have that size, or not lie there";
    case EM_NO_FRAME: return "NoFrame: so many frames were not sent";
    case EM_ROOM: return "Room: there is no room for what is told";
    case EM_NO_EVENT: return "NoEvent: the journal does not hold so many events";
    case EM_NO_CHANGE: return "NoChange: no event of the journal changed what is watched";
    case EM_NO_WATCH: return "NoWatch: there is no such kind of watch";
    case EM_NO_NAME: return "NoName: no register has the name";
    case EM_NO_REFUSAL: return "NoRefusal: no refusal has the number";
    case EM_NO_RING: return "NoRing: the rings are 1, which receives, and 2, which transmits";
    case EM_NO_DESCRIPTOR: return "NoDescriptor: the ring has no descriptor of the index";
    case EM_BUSY: return "Busy: a function of the caller's memory made the call";
    case EM_UNREAD: return "Unread: the caller's memory was not read";
    case EM_UNWRITTEN: return "Unwritten: the caller's memory was not written";
    case EM_NO_RAM: return "NoRam: the caller's memory has two functions, or a table of regions";
    case EM_BEGUN: return "Begun: a run is kept from its first event on";
    case EM_RECORDED: return "Recorded: the run is kept already";
    case EM_FILE: return "File: the file was not opened, or not written";
    case EM_UNRECORDED: return "Unrecorded: the run is not kept";
    case EM_WIDTH: return "Width: registers are accessed by four octets";
    case EM_NOT_OPEN: return "NotOpen: the handle holds no capture";
    case EM_OPEN_ALREADY: return "OpenAlready: the handle holds a capture already";
    case EM_CAPTURE_END: return "CaptureEnd: no frame of the capture is left";
    case EM_CAPTURE_MAGIC: return "CaptureMagic: the capture's magic number is not known";
    case EM_CAPTURE_VERSION: return "CaptureVersion: the capture's version is not known";
    case EM_CAPTURE_CUT: return "CaptureCut: the capture is cut short";
    case EM_CAPTURE_BLOCK: return "CaptureBlock: a block of the capture has a wrong length";
    case EM_CAPTURE_LINK: return "CaptureLink: the capture's link type is not Ethernet";
    case EM_CAPTURE_LENGTH: return "CaptureLength: a captured length is too large";
    case EM_CAPTURE_INTERFACE: return "CaptureInterface: a packet's interface is not described";
    case EM_NO_PROFILE: return "NoProfile: the profiles are 0, the table, and 1, the adapter";
    case EM_STORED_MAGIC: return "StoredMagic: the octets do not begin with BUNJELAV";
    case EM_STORED_VERSION: return "StoredVersion: the octets' version is not known";
    case EM_STORED_LENGTH: return "StoredLength: the octets are not as many as they say";
    case EM_STORED_SUM: return "StoredSum: the octets have another check sum";
    case EM_STORED_VALUE: return "StoredValue: no machine is stored so";
    default: return "Unknown: no refusal has the number";
  }
}
