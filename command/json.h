/* JSON: one object a line. Names are written as they are given; a name is NULL in an array. */
#ifndef JSON_H
#define JSON_H

#include <stdint.h>
#include <stdio.h>

void json_begin(FILE *to);
void json_end(void);
void json_number(const char *name, unsigned long long n);
void json_text(const char *name, const char *text);
/* Digits, null, true or false. */
void json_raw(const char *name, const char *value);
/* An array or an object within, by its bracket. */
void json_open(const char *name, char bracket);
void json_close(char bracket);
/* A refusal's number, and its words. */
void json_refusal(uint8_t refusal);

#endif
