/*
 * Paints one frame of a RAM image of the 48K machine from the fresh state and
 * prints the state and the counts that come with it.
 *
 * In the repository's root, after `make lib`:
 *
 *   cc -std=c11 -Itarget/include host/tropfenpfad/examples/paint.c -Ltarget/lib -ltropfenpfad -o target/paint
 *   target/paint image        or        target/paint < image
 */
#include <stdio.h>
#include <stdlib.h>

#include "tropfenpfad.h"

/* One byte more than an image, so that a longer input is seen to be longer. */
static uint8_t memory[TROPFENPFAD_IMAGE_LENGTH + 1];
static uint8_t frame[TROPFENPFAD_FRAME_LENGTH];

int main(int count, char **arguments) {
  FILE *input = stdin;
  if (count > 1) {
    input = fopen(arguments[1], "rb");
    if (input == NULL) {
      perror(arguments[1]);
      return EXIT_FAILURE;
    }
  }
  size_t length = fread(memory, 1, sizeof memory, input);
  if (ferror(input)) {
    perror("reading the image");
    return EXIT_FAILURE;
  }

  tropfenpfad_painted painted = tropfenpfad_paint_frame(
      memory, length, tropfenpfad_fresh_state(), frame, sizeof frame);
  if (painted.status != TROPFENPFAD_DONE) {
    printf("refused %u\n", (unsigned)painted.status);
    return EXIT_SUCCESS;
  }
  printf("mode %u counter %u screen %lu character %lu\n",
         (unsigned)painted.state.mode, (unsigned)painted.state.counter,
         (unsigned long)painted.screen, (unsigned long)painted.character);
  return EXIT_SUCCESS;
}
