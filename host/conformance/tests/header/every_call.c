/*
 * Makes each call of the header, in both profiles where it takes one, some
 * refused, and prints every number that comes back. every_call.rs makes the
 * same calls from Rust and compares.
 */
#include <stdio.h>
#include <string.h>

#include "tropfenpfad.h"

static uint8_t memory[TROPFENPFAD_IMAGE_LENGTH];
static uint8_t frame[TROPFENPFAD_FRAME_LENGTH];
static uint8_t map[TROPFENPFAD_MAP_LENGTH];
static tropfenpfad_cycle cycles[TROPFENPFAD_LONGEST_TRACE + 1];
static uint8_t grabbed[TROPFENPFAD_FRAME_LENGTH];
static uint16_t line_counts[TROPFENPFAD_LINES];
static uint16_t cells[TROPFENPFAD_LISTED_CELLS];

static unsigned long sum_of_bytes(const uint8_t *bytes, size_t length) {
  unsigned long sum = 0;
  for (size_t i = 0; i < length; i++) sum = (sum * 31 + bytes[i]) % 1000003;
  return sum;
}

static void painted(const char *name, tropfenpfad_painted answer) {
  printf("%s %u %u %u %u %lu %lu %lu %lu\n", name, (unsigned)answer.status,
         (unsigned)answer.state.mode, (unsigned)answer.state.counter,
         (unsigned)answer.state.profile, (unsigned long)answer.screen,
         (unsigned long)answer.character, sum_of_bytes(frame, sizeof frame),
         sum_of_bytes(map, sizeof map));
}

static void address_given(tropfenpfad_address place) {
  printf("screen_address %u %u\n", (unsigned)place.status, (unsigned)place.address);
}

static void access_made(const char *name, tropfenpfad_access answer) {
  printf("%s %u %u %u %u\n", name, (unsigned)answer.status, (unsigned)answer.target,
         (unsigned)answer.number, (unsigned)answer.byte);
}

static void latches_left(const char *name, tropfenpfad_latches latches) {
  printf("%s %u %u %u\n", name, (unsigned)latches.kind, (unsigned)latches.first,
         (unsigned)latches.second);
}

static void write_made(size_t length, uint8_t profile, uint16_t address,
                       tropfenpfad_latches latches) {
  tropfenpfad_written answer =
      tropfenpfad_write(memory, length, profile, latches, address, 0x87);
  printf("write %u %u %u %u\n", (unsigned)answer.status, (unsigned)answer.target,
         (unsigned)answer.number, (unsigned)answer.byte);
  latches_left("latches", answer.latches);
}

static void video(size_t length, uint8_t profile) {
  tropfenpfad_state state = {5, 30, profile};
  address_given(tropfenpfad_screen_address(profile, 199, 39, 4));
  address_given(tropfenpfad_screen_address(profile, 0, 40, 4));
  painted("paint_line", tropfenpfad_paint_line(memory, length, state, 100, frame, 240));
  painted("paint_line", tropfenpfad_paint_line(memory, length, state, 224, frame, 240));
  painted("paint_frame", tropfenpfad_paint_frame(memory, length, state, frame, sizeof frame));
  painted("paint_frame", tropfenpfad_paint_frame(memory, 7, state, frame, sizeof frame));
}

static void video_mapped(size_t length, uint8_t profile) {
  tropfenpfad_state state = {1, 17, profile};
  painted("paint_line_mapped", tropfenpfad_paint_line_mapped(memory, length, state, 100, frame,
                                                             240, map, sizeof map));
  painted("paint_line_mapped", tropfenpfad_paint_line_mapped(memory, length, state, 101, frame,
                                                             240, map, sizeof map - 1));
  painted("paint_frame_mapped", tropfenpfad_paint_frame_mapped(memory, length, state, frame,
                                                               sizeof frame, map, sizeof map));
  painted("paint_frame_mapped", tropfenpfad_paint_frame_mapped(memory, length, state, frame,
                                                               sizeof frame - 1, map, sizeof map));
}

static void bus(size_t length, uint8_t profile, uint8_t kind) {
  tropfenpfad_latches latches = tropfenpfad_fresh_latches();
  latches.kind = kind;
  tropfenpfad_decoded place = tropfenpfad_decode(profile, latches, 0xC123);
  printf("decode %u %u %u\n", (unsigned)place.status, (unsigned)place.target,
         (unsigned)place.number);
  access_made("read", tropfenpfad_read(memory, length, profile, latches, 0x5234));
  write_made(length, profile, 0x03FB, latches);
  access_made("write_in_place", tropfenpfad_write_in_place(memory, length, profile, &latches,
                                                           0x03FA, 0x01));
  latches_left("latches", latches);
  write_made(length, profile, 0xC000, latches);
  access_made("read", tropfenpfad_read(memory, length, profile, latches, 0xC000));
}

static unsigned long sum_of_fields(const tropfenpfad_cycle *list, size_t length) {
  unsigned long sum = 0;
  for (size_t i = 0; i < length; i++) {
    const unsigned fields[] = {list[i].address, list[i].write,  list[i].byte,
                               list[i].number,  list[i].target, list[i].byte_read};
    for (size_t k = 0; k < sizeof fields / sizeof *fields; k++)
      sum = (sum * 31 + fields[k]) % 1000003;
  }
  return sum;
}

static void traced(size_t length, uint8_t profile, tropfenpfad_latches latches,
                   tropfenpfad_cycle *list, size_t count) {
  tropfenpfad_traced answer = tropfenpfad_trace(memory, length, profile, latches, list, count);
  printf("trace %u %lu %lu\n", (unsigned)answer.status,
         sum_of_fields(cycles, sizeof cycles / sizeof *cycles),
         sum_of_bytes(memory, sizeof memory));
  latches_left("latches", answer.latches);
}

static void trace(size_t length, uint8_t profile, uint8_t kind) {
  static const uint16_t addresses[] = {0x0314, 0xC000, 0x03FA, 0xE123, 0x03FB, 0x4314, 0x0400};
  tropfenpfad_latches latches = {kind, 0x82, 0};
  for (size_t i = 0; i < sizeof cycles / sizeof *cycles; i++) {
    tropfenpfad_cycle cycle = {addresses[i % 7], (uint8_t)(i % 5), (uint8_t)(i * 37),
                               (uint16_t)(i * 1009), (uint8_t)i, (uint8_t)~i};
    cycles[i] = cycle;
  }
  traced(length, profile, latches, cycles, TROPFENPFAD_LONGEST_TRACE);
  traced(length, profile, latches, cycles, TROPFENPFAD_LONGEST_TRACE + 1);
  traced(length, profile, latches, NULL, 0);
}

static unsigned long sum_of(const uint16_t *list, size_t length) {
  unsigned long sum = 0;
  for (size_t i = 0; i < length; i++) sum = (sum * 31 + list[i]) % 1000003;
  return sum;
}

static void compared(size_t frame_length, size_t cells_length) {
  tropfenpfad_comparison answer =
      tropfenpfad_compare(frame, frame_length, grabbed, TROPFENPFAD_FRAME_LENGTH, line_counts,
                          TROPFENPFAD_LINES, cells, cells_length);
  printf("compare %u %d %u %u %u %u %lu %lu %lu %lu\n", (unsigned)answer.status, answer.empty,
         (unsigned)answer.first_x, (unsigned)answer.last_x, (unsigned)answer.first_line,
         (unsigned)answer.last_line, (unsigned long)answer.pixels, (unsigned long)answer.cells,
         sum_of(line_counts, TROPFENPFAD_LINES), sum_of(cells, TROPFENPFAD_LISTED_CELLS));
}

static void comparison(void) {
  compared(0, TROPFENPFAD_LISTED_CELLS);
  memcpy(grabbed, frame, sizeof grabbed);
  compared(sizeof frame, TROPFENPFAD_LISTED_CELLS);
  for (size_t i = 5000; i < 50000; i += 411) grabbed[i] ^= 0x80;
  compared(sizeof frame, TROPFENPFAD_LISTED_CELLS);
  compared(sizeof frame, TROPFENPFAD_LISTED_CELLS - 1);
}

/* Memory from one place on against memory from another on, so that the slip is
 * the distance of the two. */
static void slip_found(size_t reference_place, size_t grabbed_place, size_t grabbed_length) {
  tropfenpfad_slip answer =
      tropfenpfad_find_slip(memory + reference_place, TROPFENPFAD_LINE_LENGTH,
                            memory + grabbed_place, grabbed_length);
  printf("find_slip %u %d %u\n", (unsigned)answer.status, (int)answer.slip,
         (unsigned)answer.disagreements);
}

static void slip(void) {
  size_t farthest = TROPFENPFAD_FARTHEST_SLIP;
  slip_found(0, 0, TROPFENPFAD_LINE_LENGTH);
  slip_found(5, 0, TROPFENPFAD_LINE_LENGTH);
  slip_found(0, farthest, TROPFENPFAD_LINE_LENGTH);
  slip_found(0, farthest + 1, TROPFENPFAD_LINE_LENGTH);
  slip_found(0, 5, TROPFENPFAD_LINE_LENGTH + 1);
}

int main(void) {
  for (size_t i = 0; i < sizeof memory; i++) memory[i] = (uint8_t)(i * 7 + i / 251);
  tropfenpfad_state fresh = tropfenpfad_fresh_state();
  printf("fresh_state %u %u %u\n", (unsigned)fresh.mode, (unsigned)fresh.counter,
         (unsigned)fresh.profile);
  latches_left("fresh_latches", tropfenpfad_fresh_latches());
  video(TROPFENPFAD_IMAGE_LENGTH, TROPFENPFAD_PROFILE_48K);
  video(TROPFENPFAD_IMAGE_LENGTH_16K, TROPFENPFAD_PROFILE_16K);
  video(TROPFENPFAD_IMAGE_LENGTH, 2);
  video_mapped(TROPFENPFAD_IMAGE_LENGTH, TROPFENPFAD_PROFILE_48K);
  video_mapped(TROPFENPFAD_IMAGE_LENGTH_16K, TROPFENPFAD_PROFILE_16K);
  video_mapped(TROPFENPFAD_IMAGE_LENGTH, 2);
  bus(TROPFENPFAD_IMAGE_LENGTH, TROPFENPFAD_PROFILE_48K, TROPFENPFAD_KIND_MICRODISC);
  bus(TROPFENPFAD_IMAGE_LENGTH, TROPFENPFAD_PROFILE_48K, TROPFENPFAD_KIND_JASMIN);
  bus(TROPFENPFAD_IMAGE_LENGTH_16K, TROPFENPFAD_PROFILE_16K, TROPFENPFAD_KIND_NONE);
  bus(TROPFENPFAD_IMAGE_LENGTH_16K, TROPFENPFAD_PROFILE_16K, TROPFENPFAD_KIND_JASMIN);
  trace(TROPFENPFAD_IMAGE_LENGTH, TROPFENPFAD_PROFILE_48K, TROPFENPFAD_KIND_MICRODISC);
  trace(TROPFENPFAD_IMAGE_LENGTH, TROPFENPFAD_PROFILE_48K, TROPFENPFAD_KIND_JASMIN);
  trace(TROPFENPFAD_IMAGE_LENGTH_16K, TROPFENPFAD_PROFILE_16K, TROPFENPFAD_KIND_NONE);
  trace(TROPFENPFAD_IMAGE_LENGTH_16K, TROPFENPFAD_PROFILE_16K, TROPFENPFAD_KIND_JASMIN);
  comparison();
  slip();
  return 0;
}
