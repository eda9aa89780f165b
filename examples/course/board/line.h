/* Lines of text between the board and the tests. */
#ifndef LINE_H
#define LINE_H

enum { LINE_MOST = 65536, LINE_SHORT = 512 };

/* Says a line, with its newline. */
void line_say(const char *text);

/* The next line, without its newline, until the one behind it is asked for. */
char *line_next(void);

/* Opens what the tests hand over. */
void board_open(char **words);

#endif
