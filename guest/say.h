/* What em_guest tells its user: one sentence at a time, on standard error. */
#ifndef GUEST_SAY_H
#define GUEST_SAY_H

/* Prints the program's name, the sentence and a newline. */
void say(const char *format, ...) __attribute__((format(printf, 1, 2)));

/* Nothing is printed from here on: the fuzzer breaks things by the ten thousand. */
void say_nothing(void);

#endif
