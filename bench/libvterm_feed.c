/* Feeds the body of a recording to libvterm, a chunk of the timing file at a time, and prints the cursor's place.
 *
 *     libvterm_feed SCRIPT TIMING [utf8]
 *
 * It is the other side of feed.sh and today.sh: Debian's libvterm-dev, an 80x24 screen, UTF-8 off or on.
 */
#include <stdio.h>
#include <stdlib.h>
#include <string.h>
#include <vterm.h>

static char *read_file(const char *path, size_t *len)
{
	FILE *file = fopen(path, "rb");
	if (!file) {
		perror(path);
		exit(2);
	}
	fseek(file, 0, SEEK_END);
	*len = ftell(file);
	rewind(file);
	char *text = malloc(*len + 1);
	if (!text || fread(text, 1, *len, file) != *len) {
		perror(path);
		exit(2);
	}
	text[*len] = 0;
	fclose(file);
	return text;
}

int main(int argc, char **argv)
{
	int utf8 = argc == 4 && strcmp(argv[3], "utf8") == 0;
	if (argc != 3 && !utf8) {
		fprintf(stderr, "usage: libvterm_feed SCRIPT TIMING [utf8]\n");
		return 2;
	}
	size_t script_len, timing_len;
	char *script = read_file(argv[1], &script_len);
	char *line = read_file(argv[2], &timing_len);
	char *body = memchr(script, '\n', script_len);
	if (!body) {
		fprintf(stderr, "no header line\n");
		return 2;
	}
	body++;

	VTerm *term = vterm_new(24, 80);
	vterm_set_utf8(term, utf8);
	VTermScreen *screen = vterm_obtain_screen(term);
	vterm_screen_reset(screen, 1);
	while (*line) {
		char *end;
		strtod(line, &end);
		size_t count = strtoul(end, &end, 10);
		vterm_input_write(term, body, count);
		body += count;
		char replies[4096];
		while (vterm_output_read(term, replies, sizeof replies) > 0)
			;
		line = *end ? end + 1 : end;
	}
	VTermPos cursor;
	vterm_state_get_cursorpos(vterm_obtain_state(term), &cursor);
	printf("%d %d\n", cursor.row + 1, cursor.col + 1);
	return 0;
}
