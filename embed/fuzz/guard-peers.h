/* What a fuzzer's input stands for, for guard.c: a policy, and what a client and a compositor say. */
#ifndef GUARD_PEERS_H
#define GUARD_PEERS_H

#include "guard-reader.h"

enum { MOST_POLICY = 4096, MOST_MESSAGE = 1 << 16 };

void peers_begin(const uint8_t *data, size_t size);
/* A number of the input below this one; below 0 stands for any. After the input's end it is 0. */
unsigned chance(unsigned below);
bool input_has_ended(void);
/* A policy, and its text. */
void some_policy(struct rules *rules, char text[MOST_POLICY]);
/* Writes what each connection begins with, mostly: a registry, all that there is, and binds of what is allowed. Each
 * round is one side's turn. Returns how many bytes. */
enum { FIRST_ROUNDS = 3 };
size_t first_messages(int round, const struct rules *rules, uint8_t bytes[MOST_MESSAGE]);
/* Writes what a side says next, mostly as it may. Returns how many bytes, and how many descriptors belong to them. */
size_t some_message(unsigned side, const struct rules *rules, uint8_t bytes[MOST_MESSAGE], size_t *descriptors);

#endif
