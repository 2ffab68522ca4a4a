/* Prints the text screen that libvterm shows after a file's bytes: 24 lines, without the spaces at their ends.
 *
 *     libvterm_screen [-r] FILE
 *
 * With -r 24 lines of 80 hexadecimal digits follow, the renditions: 1 bold, 2 underscore, 4 blink, 8 reverse, added up.
 * It serves compare.py and redraw.py. 80x24, UTF-8 off; a cell of more than one character prints its first.
 */
#include <stdio.h>
#include <string.h>
#include <vterm.h>

static int put_utf8(unsigned c, char *to)
{
	if (c < 0x80)
		return to[0] = c, 1;
	if (c < 0x800)
		return to[0] = 0xc0 | c >> 6, to[1] = 0x80 | (c & 63), 2;
	return to[0] = 0xe0 | c >> 12, to[1] = 0x80 | (c >> 6 & 63), to[2] = 0x80 | (c & 63), 3;
}

static void put_renditions(VTermScreen *screen)
{
	for (int row = 0; row < 24; row++) {
		for (int col = 0; col < 80; col++) {
			VTermScreenCell cell;
			VTermPos pos = {row, col};
			vterm_screen_get_cell(screen, pos, &cell);
			VTermScreenCellAttrs a = cell.attrs;
			printf("%x", a.bold + 2 * (a.underline != 0) + 4 * a.blink + 8 * a.reverse);
		}
		putchar('\n');
	}
}

int main(int argc, char **argv)
{
	int renditions = argc == 3 && strcmp(argv[1], "-r") == 0;
	FILE *file = argc == 2 + renditions ? fopen(argv[argc - 1], "rb") : NULL;
	if (!file) {
		fprintf(stderr, "usage: libvterm_screen [-r] FILE\n");
		return 2;
	}
	VTerm *term = vterm_new(24, 80);
	vterm_set_utf8(term, 0);
	VTermScreen *screen = vterm_obtain_screen(term);
	vterm_screen_reset(screen, 1);
	char bytes[65536];
	size_t count;
	while ((count = fread(bytes, 1, sizeof bytes, file)) > 0)
		vterm_input_write(term, bytes, count);
	for (int row = 0; row < 24; row++) {
		char line[80 * 3 + 1];
		int end = 0, len = 0;
		for (int col = 0; col < 80; col++) {
			VTermScreenCell cell;
			VTermPos pos = {row, col};
			vterm_screen_get_cell(screen, pos, &cell);
			unsigned c = cell.chars[0];
			/* The right half of a wide cell, and a cell that was never written. */
			if (c == 0 || c == (unsigned)-1)
				c = ' ';
			len += put_utf8(c, line + len);
			if (c != ' ')
				end = len;
		}
		fwrite(line, 1, end, stdout);
		putchar('\n');
	}
	if (renditions)
		put_renditions(screen);
	return 0;
}
