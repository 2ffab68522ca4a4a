/* Loads a recording into libtty, a chunk of the timing file at a time, and seeks to each moment (in microseconds, a line
 * each) of its standard input.
 *
 *     libtty_seek SCRIPT TIMING
 *
 * It is the other side of seek.sh: Debian's libtty-dev.
 */
#include <stdio.h>
#include <stdlib.h>
#include <string.h>
#include <ttyrec.h>

static char *read_file(const char *path, size_t *len)
{
	FILE *file = fopen(path, "rb");
	if (!file) {
		perror(path);
		exit(2);
	}
	fseek(file, 0, SEEK_END);
	*len = ftell(file);
	rewind(file);
	char *text = malloc(*len + 1);
	if (!text || fread(text, 1, *len, file) != *len) {
		perror(path);
		exit(2);
	}
	text[*len] = 0;
	fclose(file);
	return text;
}

int main(int argc, char **argv)
{
	if (argc != 3) {
		fprintf(stderr, "usage: libtty_seek SCRIPT TIMING\n");
		return 2;
	}
	size_t script_len, timing_len;
	char *script = read_file(argv[1], &script_len);
	char *timing = read_file(argv[2], &timing_len);
	char *line = timing;
	char *body = memchr(script, '\n', script_len);
	if (!body) {
		fprintf(stderr, "no header line\n");
		return 2;
	}
	body++;

	ttyrec record = ttyrec_init(0);
	while (*line) {
		char *end;
		double delay = strtod(line, &end);
		size_t count = strtoul(end, &end, 10);
		struct timeval time = { (long)delay, (long)((delay - (long)delay) * 1000000 + 0.5) };
		ttyrec_add_frame(record, &time, body, count);
		body += count;
		line = *end ? end + 1 : end;
	}
	free(script);
	free(timing);

	char moment[32];
	while (fgets(moment, sizeof moment, stdin)) {
		long micros = atol(moment);
		struct timeval time = { micros / 1000000, micros % 1000000 };
		tty screen;
		ttyrec_seek(record, &time, &screen);
	}
	return 0;
}
