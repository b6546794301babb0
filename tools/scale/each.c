/*
 * The other reader over many files: the names come on standard input, one a
 * line. For each a line NAME STATUS LENGTH, then LENGTH bytes: the listing, or
 * with another status than 0 as much of it as came.
 *
 * Each listing is made in a process of its own, since the other reader ends
 * with a message on a blob that it does not list.
 */

#include <stdio.h>
#include <stdlib.h>
#include <string.h>
#include <sys/wait.h>
#include <unistd.h>

#define MOST_SECONDS 120

/* main of list.c */
int list_main(int count, char **words);

static void list_one(int out, char *name)
{
	char *words[] = { "list", name, NULL };

	alarm(MOST_SECONDS);
	if (dup2(out, 1) < 0 || !freopen("/dev/null", "w", stderr))
		_exit(3);
	exit(list_main(2, words));
}

static size_t read_all(int in, char **bytes, size_t *room)
{
	size_t length = 0;
	ssize_t more;

	do {
		if (*room - length < 65536) {
			*room += 1 << 20;
			*bytes = realloc(*bytes, *room);
			if (!*bytes)
				exit(2);
		}
		more = read(in, *bytes + length, *room - length);
		if (more < 0)
			exit(2);
		length += (size_t)more;
	} while (more > 0);
	return length;
}

int main(void)
{
	char name[4096];
	char *bytes = NULL;
	size_t room = 0;

	while (fgets(name, sizeof(name), stdin)) {
		int ends[2], status;
		size_t length;
		pid_t child;

		name[strcspn(name, "\n")] = '\0';
		fflush(stdout);
		if (pipe(ends) || (child = fork()) < 0)
			return 2;
		if (child == 0) {
			close(ends[0]);
			list_one(ends[1], name);
		}
		close(ends[1]);
		length = read_all(ends[0], &bytes, &room);
		close(ends[0]);
		if (waitpid(child, &status, 0) != child)
			return 2;
		printf("%s %d %zu\n", name, status, length);
		fwrite(bytes, 1, length, stdout);
	}
	free(bytes);
	return 0;
}
