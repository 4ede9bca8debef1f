/* What the tests of verdicts share. */
#ifndef VERDICT_H
#define VERDICT_H

#include "check.h"
#include "class_facts.h"
#include "records.h"

/* The state that the last open verdict came with. */
static uint16_t written[BIKUVOA_DECIDE_WORDS];

/* Decide and holds say the same, and an open verdict comes with a counterexample, whose class facts are counted. */
static void verdict(Record schema, Record query, Record view, int held, const char *what, int row)
{
    uint64_t answer = 97, objects = 98, object = 99, found = 0;
    check(bikuvoa_holds(schema.at, schema.words, query.at, query.words, view.at, view.words, &answer) == 0
              && answer == (uint64_t)held, what, row);
    check(bikuvoa_decide(schema.at, schema.words, query.at, query.words, view.at, view.words, written, BIKUVOA_DECIDE_WORDS,
                         &objects, &object) == 0 && (objects == 0) == held, what, row);
    if (held) return;
    check(bikuvoa_counterexample(schema.at, schema.words, query.at, query.words, view.at, view.words, written,
                                 bikuvoa_state_length(written), &found) == 0 && 0 < found && found <= object + 1, what, row);
    check(class_facts_are_first(written), "the class facts of a written state", row);
}

#endif
