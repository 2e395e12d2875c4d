/*
 * tropfenpfad.h - the proved reference of the HCS10017, the ULA of the Oric Atmos
 *
 * Two halves. The video half says where a screen byte stands and paints lines
 * and frames from a RAM image; on request it marks in a map which addresses
 * they use. The bus half says what answers at an address, and reads and writes
 * over it, one access a call or a whole trace of them. Both serve the 48K
 * machine and the 16K machine, by a profile that the caller hands over. Beside
 * the halves stand two calls for pictures that were grabbed from a screen,
 * which hold them against those that should be there: the comparison says where
 * two frames differ, and the search for a slip says by how many pixels a line
 * stands beside its place.
 * The archive is libtropfenpfad.a (x86-64 Linux); it needs the C library's
 * memcpy and memset and nothing else. `make lib` puts it into target/lib and
 * this header into target/include. The example is compiled so:
 *
 *   cc -std=c11 -Itarget/include host/tropfenpfad/examples/paint.c -Ltarget/lib -ltropfenpfad -o target/paint
 *
 * Every answer is a record by value. Where it has a status, that is 0 for done
 * or the number of a refusal, and the refusals below say the rest. No call
 * prints, allocates, fails or stops the program in any other way, and none
 * keeps anything between calls: threads may call at the same time as long as
 * no one of them writes bytes that another one uses.
 *
 * What the caller owes
 *
 *   - A pointer that comes with a length points to that many elements of its
 *     type, bytes, numbers of 16 bits or records: readable where it is const,
 *     else readable and writable. Any length may be handed over; a wrong one is
 *     refused, and then none of the elements is changed.
 *   - A null pointer only together with the length 0, which is answered for the
 *     list of a trace and refused for everything else. The pointer to a latch
 *     record has no length and is never null.
 *   - A pointer to numbers of 16 bits, or to records that hold such numbers, is
 *     aligned to 2 bytes. These are line_counts and cells of compare, and
 *     cycles of trace.
 *   - What is lent in one call does not overlap: not memory and output, not a
 *     map and either of these, not memory and latch record, not memory and the
 *     list of a trace, not a list and a frame, not the two lists of compare.
 *     Only the two frames of compare and the two lines of find_slip may overlap
 *     or be the same: they are only read.
 *
 * Nothing else is owed. Every value of every number is answered or refused,
 * a byte may hold anything, no buffer of bytes needs an alignment, and what is
 * only filled needs no first content. The calls touch no byte outside what is
 * lent to them.
 *
 * Numbers such as BB80 in these comments are hexadecimal addresses.
 */
#ifndef TROPFENPFAD_H
#define TROPFENPFAD_H

#include <stdbool.h>
#include <stddef.h>
#include <stdint.h>

#ifdef __cplusplus
extern "C" {
#endif

/* ------------------------------------------------------------------------- */
/* Profiles: the values of `profile`                                         */
/* ------------------------------------------------------------------------- */

/*
 * Every call that deals in addresses takes the profile: the painters in the
 * state, the others as an argument.
 *
 * The 16K machine has one block of RAM, mirrored in each 16K block below C000:
 * 3B80, 7B80 and BB80 are one byte. So in profile 1 every RAM address is
 * folded, which means taken mod 16,384, for video and bus alike, and a RAM
 * address that a call gives is the folded one. In profile 0 the folded address
 * is the address itself.
 */
#define TROPFENPFAD_PROFILE_48K 0 /* the 48K machine */
#define TROPFENPFAD_PROFILE_16K 1 /* the 16K machine; it has no disc controller */

/* ------------------------------------------------------------------------- */
/* Sizes                                                                     */
/* ------------------------------------------------------------------------- */

/* Bytes in a memory image, by profile: the machine's whole RAM, byte n at the
 * folded address n. ROM and EPROM are not part of it. */
#define TROPFENPFAD_IMAGE_LENGTH     65536 /* profile 0, with the 16K that only an overlay shows */
#define TROPFENPFAD_IMAGE_LENGTH_16K 16384 /* profile 1 */

/* Cells from left to right, six pixels each; columns are 0 to 39. */
#define TROPFENPFAD_COLUMNS 40

/* Lines from top to bottom; they are 0 to 223. */
#define TROPFENPFAD_LINES 224

/* Bytes in a painted line, one for each pixel from left to right. A pixel is
 * 0 to 7: bit 0 red, bit 1 green, bit 2 blue. */
#define TROPFENPFAD_LINE_LENGTH 240

/* Bytes in a painted frame: its lines one after the other. Pixel x of line y
 * stands at 240 * y + x. */
#define TROPFENPFAD_FRAME_LENGTH 53760

/* Bytes in a map of used addresses, in either profile: one bit for each of
 * 65,536 addresses. Address a has bit a % 8 of byte a / 8. */
#define TROPFENPFAD_MAP_LENGTH 8192

/* ------------------------------------------------------------------------- */
/* Refusals: the values of `status`                                          */
/* ------------------------------------------------------------------------- */

/*
 * Each function lists the refusals that it can give. It tests them in the
 * order in which it lists them and gives the first that applies, so that a
 * call with two wrong arguments always gives the same number.
 *
 * A refused call has changed nothing that was lent. In its answer the state or
 * the latches are those that were handed in, and all else but the status is 0
 * or false.
 */
#define TROPFENPFAD_DONE                0 /* the call was answered */
#define TROPFENPFAD_REFUSED_MEMORY      1 /* memory_length is not the profile's: 65,536 or 16,384 */
#define TROPFENPFAD_REFUSED_OUTPUT      2 /* output, line, frame, map or list has not its right length */
#define TROPFENPFAD_REFUSED_MODE        3 /* mode is above 7 */
#define TROPFENPFAD_REFUSED_COUNTER     4 /* counter is above 31 */
#define TROPFENPFAD_REFUSED_LINE        5 /* line is above 223 */
#define TROPFENPFAD_REFUSED_COLUMN      6 /* column is above 39 */
#define TROPFENPFAD_REFUSED_KIND        7 /* the latches' kind is above 2 */
#define TROPFENPFAD_REFUSED_TRACE       8 /* a trace has more than 1,024 records */
#define TROPFENPFAD_REFUSED_PROFILE    12 /* profile is above 1 */
#define TROPFENPFAD_REFUSED_CONTROLLER 13 /* profile is 1 and the latches' kind is not 0 */

/* ------------------------------------------------------------------------- */
/* Video                                                                     */
/* ------------------------------------------------------------------------- */

/* What video carries from cell to cell, line to line and frame to frame. */
typedef struct {
  uint8_t mode;    /* 0 to 7: bit 2 hires (else text), bit 1 50 Hz (else 60), bit 0 kept, no effect */
  uint8_t counter; /* flash counter, 0 to 31: flashing ink is shown below 16, hidden from 16 on */
  uint8_t profile; /* TROPFENPFAD_PROFILE_...; no call changes it */
} tropfenpfad_state;

/* The answer of paint_line and paint_frame, with a map or without one. */
typedef struct {
  uint8_t status;          /* TROPFENPFAD_DONE or a refusal */
  tropfenpfad_state state; /* the state afterwards; as handed in on a refusal */
  uint32_t screen;         /* screen bytes used: 40 for a line, 8,960 for a frame */
  uint32_t character;      /* character bytes used, an address used twice counted twice */
} tropfenpfad_painted;

/* The answer of screen_address. */
typedef struct {
  uint8_t status;   /* TROPFENPFAD_DONE or a refusal */
  uint16_t address; /* where the cell's screen byte stands: A000 to BFDF, folded 2000 to 3FDF */
} tropfenpfad_address;

/* The state to begin with: mode 2 (text, 50 Hz), counter 0, profile 0. For the
 * 16K machine the caller sets the profile. Refuses nothing. */
tropfenpfad_state tropfenpfad_fresh_state(void);

/*
 * Where the screen byte of a cell stands when `mode` is in force there.
 *
 *   hires, lines 0 to 199:  A000 + 40 * line + column
 *   all else:               BB80 + 40 * (line / 8) + column
 *
 * Returns this address, folded in profile 1.
 * Refuses: 12 profile, 3 mode, 5 line, 6 column.
 */
tropfenpfad_address tropfenpfad_screen_address(uint8_t profile, size_t line, size_t column,
                                               uint8_t mode);

/*
 * Paints one line.
 *
 * The line begins with ink 7, style 0, paper 0 and the mode of `state`. Each
 * of its forty cells takes the screen byte at the address that the mode in
 * force gives. A byte with bits 5 and 6 both 0 is an attribute: bits 3 and 4
 * name the register (0 ink, 1 style, 2 paper, 3 mode), bits 0 to 2 are its new
 * value, and the cell shows six pixels of paper, the new one if it set that.
 * A new mode holds from the next cell on. Any other byte is a picture, of six
 * pixels in ink (1) and paper (0), bit 5 leftmost: the byte's own low six bits
 * in hires on lines 0 to 199, else those of one byte of the character set.
 *
 *   character byte:  set + 400 if alternate + 8 * (byte % 128) + row
 *   set:             B400 in text, 9800 in hires (lines 200 to 223)
 *   row:             line % 8, or line / 2 % 8 in double height
 *   style:           bit 0 alternate set, bit 1 double height, bit 2 flash
 *
 * In profile 1 the addresses of screen and character bytes are folded.
 *
 * With the flash style, ink shows as paper while the counter is 16 or more.
 * Last, bit 7 of the screen byte turns each colour c into 7 - c, on attribute
 * cells too.
 *
 *   memory, memory_length   the RAM image, of the profile's length; only read
 *   state                   mode and counter before the line, and the profile
 *   line                    0 to 223
 *   output, output_length   240 bytes, all of them written
 *
 * Returns the state after the line (its mode; counter and profile stay) and the
 * numbers of screen and character bytes used. Attribute cells and hires cells
 * on lines 0 to 199 use no character byte.
 * Refuses: 12 profile, 1 memory, 2 output, 3 mode, 4 counter, 5 line.
 */
tropfenpfad_painted tropfenpfad_paint_line(const uint8_t *memory, size_t memory_length,
                                           tropfenpfad_state state, size_t line,
                                           uint8_t *output, size_t output_length);

/*
 * Paints one frame: lines 0 to 223 in order as paint_line does, each from
 * 240 * line on, the mode handed from line to line.
 *
 *   memory, memory_length   the RAM image, of the profile's length; only read
 *   state                   mode and counter before the frame, and the profile
 *   frame, frame_length     53,760 bytes, all of them written
 *
 * Returns the state to hand to the next frame, which is the mode that the last
 * line left, the counter plus one, 0 after 31, and the same profile, and the
 * sums of the lines' counts. Hand that state on: a frame that is painted from
 * the fresh state although the one before it ended in hires has other pixels.
 * Refuses: 12 profile, 1 memory, 2 output, 3 mode, 4 counter.
 */
tropfenpfad_painted tropfenpfad_paint_frame(const uint8_t *memory, size_t memory_length,
                                            tropfenpfad_state state,
                                            uint8_t *frame, size_t frame_length);

/*
 * Paints one line as paint_line does, and marks the addresses that it uses.
 *
 * These are the addresses of its forty screen bytes, and of the character byte
 * of each cell that uses one, also where flash hides the ink. Only bits of used
 * addresses are set. All others stay as they were, so that lines and frames
 * that are painted one after the other gather their marks in one map. For the
 * marks of one call alone, hand over a map of zeros.
 *
 *   memory, memory_length   the RAM image, of the profile's length; only read
 *   state                   mode and counter before the line, and the profile
 *   line                    0 to 223
 *   output, output_length   240 bytes, all of them written
 *   map, map_length         8,192 bytes in either profile. In profile 1 the
 *                           addresses are folded, and the bytes from 2,048 on
 *                           are not touched
 *
 * Returns what paint_line returns.
 * Refuses: 12 profile, 1 memory, 2 output, for the line and then for the map,
 * 3 mode, 4 counter, 5 line.
 */
tropfenpfad_painted tropfenpfad_paint_line_mapped(const uint8_t *memory, size_t memory_length,
                                                  tropfenpfad_state state, size_t line,
                                                  uint8_t *output, size_t output_length,
                                                  uint8_t *map, size_t map_length);

/*
 * Paints one frame as paint_frame does, and marks the addresses that its lines
 * use, as paint_line_mapped does.
 *
 *   memory, memory_length   the RAM image, of the profile's length; only read
 *   state                   mode and counter before the frame, and the profile
 *   frame, frame_length     53,760 bytes, all of them written
 *   map, map_length         8,192 bytes in either profile; bits are only set
 *
 * Returns what paint_frame returns.
 * Refuses: 12 profile, 1 memory, 2 output, for the frame and then for the map,
 * 3 mode, 4 counter.
 */
tropfenpfad_painted tropfenpfad_paint_frame_mapped(const uint8_t *memory, size_t memory_length,
                                                   tropfenpfad_state state,
                                                   uint8_t *frame, size_t frame_length,
                                                   uint8_t *map, size_t map_length);

/* ------------------------------------------------------------------------- */
/* Bus                                                                       */
/* ------------------------------------------------------------------------- */

/* Controller kinds: the values of `kind`. Profile 1 goes with kind 0 alone. */
#define TROPFENPFAD_KIND_NONE      0 /* no controller: C000 to FFFF is the BASIC ROM */
#define TROPFENPFAD_KIND_MICRODISC 1 /* one latch, at 0314 */
#define TROPFENPFAD_KIND_JASMIN    2 /* two latches, at 03FA and 03FB */

/* Targets: the values of `target`, each with the meaning of its `number`. */
#define TROPFENPFAD_TARGET_RAM         0 /* RAM below C000; number: the folded address */
#define TROPFENPFAD_TARGET_VIA         1 /* the 6522; number: its register, 0 to 15 */
#define TROPFENPFAD_TARGET_CONTROLLER  2 /* disc controller; number: address - 0300 */
#define TROPFENPFAD_TARGET_BASIC_ROM   3 /* BASIC ROM; number: address - C000 */
#define TROPFENPFAD_TARGET_OVERLAY_RAM 4 /* RAM from C000 on; number: the address */
#define TROPFENPFAD_TARGET_BOOT_EPROM  5 /* boot EPROM; number: address - E000 (Microdisc)
                                            or address - C000 (Jasmin) */
#define TROPFENPFAD_TARGET_UNASSIGNED  6 /* nothing is there; number: address - 0300 */

/* Which controller is fitted and what was last written to its latches. */
typedef struct {
  uint8_t kind;   /* TROPFENPFAD_KIND_...; one that is wrong is refused where it is used */
  uint8_t first;  /* Microdisc: written at 0314; Jasmin: written at 03FA; any byte */
  uint8_t second; /* Jasmin: written at 03FB; any byte */
} tropfenpfad_latches;

/* The answer of decode. */
typedef struct {
  uint8_t status;  /* TROPFENPFAD_DONE or a refusal */
  uint8_t target;  /* TROPFENPFAD_TARGET_... */
  uint16_t number; /* which of the target's bytes or registers */
} tropfenpfad_decoded;

/* The answer of read and of write_in_place. */
typedef struct {
  uint8_t status;  /* TROPFENPFAD_DONE or a refusal */
  uint8_t target;  /* TROPFENPFAD_TARGET_... */
  uint16_t number; /* which of the target's bytes or registers */
  uint8_t byte;    /* the byte read; 0 from anything but RAM, and for a write */
} tropfenpfad_access;

/* The answer of write. */
typedef struct {
  uint8_t status;              /* TROPFENPFAD_DONE or a refusal */
  uint8_t target;              /* TROPFENPFAD_TARGET_... */
  uint16_t number;             /* which of the target's bytes or registers */
  uint8_t byte;                /* always 0: a write reads nothing */
  tropfenpfad_latches latches; /* for the next access; as handed in on a refusal */
} tropfenpfad_written;

/* The latches to begin with: kind 0 (no controller), both latch bytes 0. The
 * caller sets the kind of the controller that is fitted; the calls that use
 * the record refuse a kind above 2, and in profile 1 one above 0. Refuses
 * nothing itself. */
tropfenpfad_latches tropfenpfad_fresh_latches(void);

/*
 * What answers at an address.
 *
 *   0000 to 02FF, 0400 to BFFF                    RAM
 *   page 3   Microdisc: 0310 to 0314, 0318        controller
 *            Microdisc: the rest of 0310 to 031F  unassigned
 *            Jasmin:    03F4 to 03FF              controller
 *            all else                             VIA, register address % 16
 *   C000 to FFFF, by kind:
 *            none       BASIC ROM
 *            Microdisc  bit 1 of first set: BASIC ROM; clear: overlay RAM if
 *                       bit 7 of first is set, else boot EPROM from E000 on
 *                       and overlay RAM below it
 *            Jasmin     bit 0 of first set: overlay RAM; clear: boot EPROM if
 *                       bit 0 of second is set, else BASIC ROM
 *
 * The address is taken apart as it is, before it is folded: in profile 1 page 3
 * and the ROM are not mirrored, and only RAM's number is folded. 4300 and 8300
 * are RAM with the number 0300, the byte behind page 3, which no access at 0300
 * itself reaches.
 *
 * Returns the target and its number.
 * Refuses: 12 profile, 7 kind, 13 controller.
 */
tropfenpfad_decoded tropfenpfad_decode(uint8_t profile, tropfenpfad_latches latches,
                                       uint16_t address);

/*
 * Reads one byte over the bus; changes nothing.
 *
 *   memory, memory_length   the RAM image, of the profile's length; only read
 *   profile                 TROPFENPFAD_PROFILE_...
 *   latches                 the latches in force
 *   address                 any
 *
 * Returns the target and its number as decode does, and the byte at that
 * number for RAM and overlay RAM, 0 for every other target.
 * Refuses: 12 profile, 1 memory, 7 kind, 13 controller.
 */
tropfenpfad_access tropfenpfad_read(const uint8_t *memory, size_t memory_length, uint8_t profile,
                                    tropfenpfad_latches latches, uint16_t address);

/*
 * Writes one byte over the bus, latches by value.
 *
 *   memory, memory_length   the RAM image, of the profile's length; one byte is
 *                           stored at the target's number for RAM and overlay
 *                           RAM, none for any other target
 *   profile                 TROPFENPFAD_PROFILE_...
 *   latches                 the latches in force for this access
 *   address, byte           any
 *
 * Returns the target and its number as decode does, byte 0, and the latches
 * for the next access. These are the ones handed in, but for a write to a
 * latch: Microdisc at 0314 sets first, Jasmin at 03FA first and at 03FB second.
 * Refuses: 12 profile, 1 memory, 7 kind, 13 controller.
 */
tropfenpfad_written tropfenpfad_write(uint8_t *memory, size_t memory_length, uint8_t profile,
                                      tropfenpfad_latches latches,
                                      uint16_t address, uint8_t byte);

/*
 * Writes one byte over the bus, latches in place: as write, but the latches in
 * force are those of the lent record, and those for the next access are left
 * in it. A refused call leaves the record as it was.
 *
 *   latches                 one record, never null, apart from memory
 *
 * Returns the target, its number and byte 0.
 * Refuses: 12 profile, 1 memory, 7 kind, 13 controller.
 */
tropfenpfad_access tropfenpfad_write_in_place(uint8_t *memory, size_t memory_length,
                                              uint8_t profile, tropfenpfad_latches *latches,
                                              uint16_t address, uint8_t byte);

/* ------------------------------------------------------------------------- */
/* Trace                                                                     */
/* ------------------------------------------------------------------------- */

/* Records of the longest list that a call takes. */
#define TROPFENPFAD_LONGEST_TRACE 1024

/* One access of a trace. The first three fields say what to do, and no call
 * changes them; the other three are filled in, whatever they held. */
typedef struct {
  uint16_t address;  /* any */
  uint8_t write;     /* 0: a read; any other value: a write */
  uint8_t byte;      /* the byte to write; a read has no use for it */
  uint16_t number;   /* filled in: which of the target's bytes or registers */
  uint8_t target;    /* filled in: TROPFENPFAD_TARGET_... */
  uint8_t byte_read; /* filled in: the byte read; 0 from anything but RAM, and for a write */
} tropfenpfad_cycle;

/* The answer of trace. */
typedef struct {
  uint8_t status;              /* TROPFENPFAD_DONE or a refusal */
  tropfenpfad_latches latches; /* for the next access; as handed in on a refusal */
} tropfenpfad_traced;

/*
 * Makes a list of accesses over the bus, such as a burst that a logic probe has
 * stored, from the first record to the last, and fills in what came of each.
 *
 * A record gets what read would answer if it is a read, and what write would
 * answer if it is a write, from the memory and under the latches that the
 * records before it have left. So a read finds what an earlier record stored,
 * and a latch that a record writes holds from the next record on. A longer list
 * may be handed over in pieces, each with the latches that the one before it
 * returned: that comes to the same.
 *
 *   memory, memory_length   the RAM image, of the profile's length; each write
 *                           stores in it as write does
 *   profile                 TROPFENPFAD_PROFILE_..., for the whole list
 *   latches                 the latches in force for the first record
 *   cycles, count           0 to 1,024 records; number, target and byte_read of
 *                           each are filled in. For an empty list the pointer
 *                           may be null
 *
 * Returns the latches for the next access: the ones handed in, with each latch
 * byte that the list writes as it was written last.
 * Refuses: 12 profile, 1 memory, 7 kind, 13 controller, 8 trace. No record is
 * looked at for this: with a wrong argument an empty list is refused as well.
 */
tropfenpfad_traced tropfenpfad_trace(uint8_t *memory, size_t memory_length, uint8_t profile,
                                     tropfenpfad_latches latches,
                                     tropfenpfad_cycle *cycles, size_t count);

/* ------------------------------------------------------------------------- */
/* Comparison                                                                */
/* ------------------------------------------------------------------------- */

/* Places in the list of differing cells. */
#define TROPFENPFAD_LISTED_CELLS 64

/* What an unused place of that list holds; no cell has this number. */
#define TROPFENPFAD_NO_CELL 65535

/* The answer of compare: the smallest rectangle that holds all differing
 * pixels, its last x and line included, and how many pixels and cells differ. */
typedef struct {
  uint8_t status;     /* TROPFENPFAD_DONE or a refusal */
  bool empty;         /* no pixel differs, and the rectangle is four zeros; false on a refusal */
  uint8_t first_x;    /* of the rectangle, 0 to 239 */
  uint8_t last_x;     /* 0 to 239 */
  uint8_t first_line; /* 0 to 223 */
  uint8_t last_line;  /* 0 to 223 */
  uint32_t pixels;    /* pixels that differ, up to 53,760 */
  uint32_t cells;     /* cells that differ, up to 8,960, the listed ones and all others */
} tropfenpfad_comparison;

/*
 * Says where two frames differ.
 *
 * A pixel may be any byte, and all eight of its bits count. A differing cell is
 * one with a differing pixel among its six; its number is 40 * line + column.
 * Which of the frames comes first does not matter.
 *
 *   first, first_length                53,760 bytes, pixel x of line y at
 *                                      240 * y + x; only read
 *   second, second_length              53,760 bytes, the same; only read
 *   line_counts, line_counts_length    224 numbers, all of them written: how
 *                                      many pixels of each line differ
 *   cells, cells_length                64 numbers, all of them written: the
 *                                      differing cells by line and then column
 *                                      as far as there is room, then 65,535
 *
 * Returns the rectangle and both counts. Equal frames give an empty rectangle
 * and counts of 0, line by line too.
 * Refuses: 2 output, for either frame and either list.
 */
tropfenpfad_comparison tropfenpfad_compare(const uint8_t *first, size_t first_length,
                                           const uint8_t *second, size_t second_length,
                                           uint16_t *line_counts, size_t line_counts_length,
                                           uint16_t *cells, size_t cells_length);

/* ------------------------------------------------------------------------- */
/* Slip                                                                      */
/* ------------------------------------------------------------------------- */

/* The farthest slip to either side: slips are -12 to 12. */
#define TROPFENPFAD_FARTHEST_SLIP 12

/* The answer of find_slip. */
typedef struct {
  uint8_t status;         /* TROPFENPFAD_DONE or a refusal */
  int8_t slip;            /* pixels to the right, -12 to 12: below 0 to the left; 0 on a refusal */
  uint16_t disagreements; /* at this slip, of the reference's 240 pixels; 0 on a refusal */
} tropfenpfad_slip;

/*
 * Says by how many pixels a grabbed line stands beside its place.
 *
 * At slip s the partner of the reference's pixel x is pixel x + s of the
 * grabbed line. The two agree if they are the same byte. Where x + s is below 0
 * or above 239 there is no partner, and the pixel disagrees; so there are at
 * least n disagreements at slip n, and at -n as well. A pixel of the grabbed
 * line that is nobody's partner does not count. A pixel may be any byte, and
 * all eight of its bits count.
 *
 *   reference, reference_length   240 bytes, the line as it should be; only read
 *   grabbed, grabbed_length       240 bytes, the line as it came in; only read
 *
 * Returns the slip from -12 to 12 with the fewest disagreements, and their
 * number. Among slips with equally few it is the one nearest to 0, and -n if
 * that could be -n or n. A grabber that starts three pixels early gives 3, one
 * that starts three pixels late gives -3, and lines that agree in no pixel at
 * any slip give slip 0 and 240 disagreements.
 * Refuses: 2 output, for either line.
 */
tropfenpfad_slip tropfenpfad_find_slip(const uint8_t *reference, size_t reference_length,
                                       const uint8_t *grabbed, size_t grabbed_length);

#ifdef __cplusplus
}
#endif

#endif /* TROPFENPFAD_H */
