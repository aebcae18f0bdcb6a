/* Tumreslo's calls for C: the analysis of an EON text, what can still become of an object, the replay of a run and why it breaks, the replay one place
 * at a time, the accepted lines, the mark of a hand-in, which lines to strike and how many choices of them are reached, the game of attacker and
 * guardian, the shortest way between two sets of labels, what is declared and stands on a line, for display; and the text of a desk for Asbestos labels.
 *
 * The library is written by `./library` as target/staticlib/libeon.a.
 *
 * A buffer is passed as a pointer and its number of elements. Buffers must not overlap, and a pointer must not be null,
 * not even where the number of elements is 0.
 *
 * The calls eon_analyze, eon_from, eon_replay, eon_why, eon_place, eon_mark, eon_handin, eon_cure, eon_tally, eon_game, eon_way and eon_asbestos
 * return kind * 2^32 + value:
 *
 *   kind 0   unreached               value 0
 *   kind 1   reached                 value: the number n of places of the run shown
 *   kind 2   refused                 value: number * 65,536 + line
 *   kind 3   kept                    value 0; from eon_place the number of those who stood by
 *   kind 4   broken                  value: the place, from 0; from eon_why with the reason
 *   kind 5   unreadable hand-in      value: the hand-in's line; 0 for one over EON_HANDIN bytes
 *   kind 6   right                   value 0
 *   kind 7   the other verdict       value: 1 where the question is reached, 0 where it is unreached
 *   kind 8   breaks                  value: place * 65,536 + line: the place, from 0, and the hand-in's line of it; the line behind the last
 *                                    where the run ends too soon
 *   kind 9   the hand-in says no     value 0
 *   kind 10  the hand-in says yes    value: places * 65,536 + first: the places of its run, and the hand-in's line of the first; the line behind
 *                                    the last where there are none
 *   kind 11  lines to strike         value: how many
 *   kind 12  no choice does          value 0
 *   kind 13  counted                 value 0
 *   kind 14  written                 value: the bytes of the text
 *   kind 15  told                    value: the number of reachable atomic states
 *   kind 16  a way                   value: its steps
 *   kind 17  no way                  value 0
 *
 * Numbers of refusals: 1 no bytes, or over 16,384; 2 a bad byte, or a last line without byte 10; 3 a line that has no shape;
 * 4 one declaration or clause too many; 5 a name declared again; 6 a name undeclared or of the wrong kind; 7 a wrong number of variables;
 * 8 `not` before a derived relation; 9 a variable only under `not` or only in the head, a fourth variable, one repeated in a rule's head;
 * 10 a line after `ask`, or no `ask`; 11 three or more carried variables; 12 a work area under EON_WORK bytes, or a table lent for writing
 * under EON_RUN places; 14 a run over EON_RUN places, or a state that has kept EON_RUN; 15 more than 127 non-empty atomic states are reachable;
 * 16, 17 and 18 from eon_from, which says when; 19 a list of lines that is empty or has over EON_STRUCK, names a line twice, or names one that is
 * neither `new` nor `next`; 20, from eon_asbestos, no process kinds, over 18, a level outside the five, or an output under EON_TEXT bytes; 21 and 22 from
 * eon_game, which says when; 23, from eon_way, one of the two states is not reachable. No call gives 13.
 * The first line is 1; the line is 0 for numbers 1, 12 and 14 to 23. 15 comes after all others but 23, from eon_analyze, eon_from, eon_cure, eon_tally,
 * eon_game and eon_way, and from eon_mark where the verdict is needed. A replay of such a text works as ever, and the calls for display take it as accepted.
 *
 * After a refusal below 15, or of 19 to 22, the lent buffers are as they were, but for the cells that a call always writes, and so they are after an
 * unreadable hand-in. After 15 to 18, 23 and every other answer the first EON_WORK bytes of the work area are zero, and the rest is as it was.
 *
 * A call needs under 640 KB of stack, and no memory but the stack and what is lent.
 *
 * A place of a run is a number of 32 bits. A step is line * 256 + object. A meeting is
 * 2,147,483,648 + stage * 16,777,216 + o1 * 65,536 + o2 * 256 + o3, with 255 where there is no object.
 *
 * The number of those who stood by at a step says which objects made the line's body hold: the first choice of objects for the line's variables in
 * order of first appearance in the line, a `next` line's own variable first. It is o1 * 65,536 + o2 * 256 + o3, with 255 where there is no variable;
 * 16,777,215 for a line without variables. A meeting has 0.
 *
 * An atomic state is a number of 32 bits: the relation of the first `state` line counts 1, the next 2, then 4, and so on up to the 24th, which counts
 * 8,388,608; the empty state is 0.
 */
#ifndef EON_H
#define EON_H

#include <stddef.h>
#include <stdint.h>

#ifdef __cplusplus
extern "C" {
#endif

/* The sizes that buffers need: bytes of the work area, places of a run table lent for writing, cells beside an answer, cells of a replay state. */
#define EON_WORK 65536
#define EON_RUN 9344
#define EON_OUT 130
#define EON_SESSION 260

/* The bytes that an output of eon_asbestos needs, and the cells of its kinds. */
#define EON_TEXT 16384
#define EON_KINDS 54

/* The bytes that a hand-in has at most. */
#define EON_HANDIN 524288

/* The lines that a list to strike has at most, for which eon_cure has as many cells; and the cells beside the answer of eon_tally. */
#define EON_STRUCK 10
#define EON_COUNTS 4

/* The lines that a side of eon_game has at most, the cells of its states and of their moves, and the number that says that a state is the guardian's. */
#define EON_SIDE 10
#define EON_STATES 128
#define EON_GUARDIAN 255

/* Analyzes a text: kind 0, 1 or 2. It is refused 15 exactly if more than 127 non-empty atomic states are reachable, whatever is asked.
 *
 * out has EON_OUT cells, and all of them are written. out[0] is the number of reachable atomic states; out[1] and so on are these states by rising
 * number, so that the empty one, 0, comes first if it is reachable, with zeros behind them up to out[128]; out[129] is the number of the last place
 * of the run shown, 0 where there is none.
 * After a refusal all are 0.
 *
 * run is written only for reached, and only its first n places; so it is as it was after 15. */
uint64_t eon_analyze(const uint8_t *text, size_t bytes, uint8_t *work, size_t work_bytes, uint32_t *run, size_t places, uint32_t *out);

/* Asks what can still become of an object: kind 0, 1 or 2. `before` has the places kept so far, from the empty database on; the question is put anew from
 * the database that they leave: reached exactly if from there some run meets all stages, from stage 1 on, with the first variable of stage 1 (by first
 * appearance) standing for the object. Meetings among the places count for nothing here, and a replay that is left open is unaffected.
 *
 * The run shown starts from that database with no stage met and nothing carried; its new objects are numbered from the number created so far, its
 * meeting of stage 1 names the object first, and it relabels no old object but that one. out and run are as for eon_analyze; the states are the text's.
 *
 * Refused besides, after the lines and before 15, each with line 0 and with the buffers as after 15: 16 if one of the places is broken, or the object was
 * not created; 17 if stage 1 has no variable; 18 if over 126 objects exist. `before` is too long, 14, over EON_RUN places. */
uint64_t eon_from(const uint8_t *text, size_t bytes, const uint32_t *before, size_t count, uint32_t object, uint8_t *work, size_t work_bytes, uint32_t *run, size_t places, uint32_t *out);

/* Replays a run over a text: kind 2, 3 or 4.
 *
 * stood is a table lent for writing. Each place before the one at which the run breaks, or all of them, gets the number of those who stood by; its
 * other places are left as they were, and all of them after a refusal. */
uint64_t eon_replay(const uint8_t *text, size_t bytes, const uint32_t *run, size_t places, uint8_t *work, size_t work_bytes, uint32_t *stood, size_t numbers);

/* Replays a run over a text as eon_replay does, and leaves the same in the buffers, but says besides why the run breaks: kind 2 or 3, or kind 4 with
 * place * 65,536 + reason * 256 + literal:
 *
 *   reason 0  the run ends, and a stage is left        reason 5  another stage is the next one
 *   reason 1  all stages were met before               reason 6  the stage has another number of variables
 *   reason 2  no `new` or `next` line has this number  reason 7  a carried variable stands for another object
 *   reason 3  a new object does not get this number    reason 8  a body does not hold: its literals are tried in order, first those without `not`,
 *   reason 4  there is no such object                            and `literal`, from 0, is the first that no objects make true with those before it
 *
 * A number that stands for no place has one of these reasons too, and it says nothing. */
uint64_t eon_why(const uint8_t *text, size_t bytes, const uint32_t *run, size_t places, uint8_t *work, size_t work_bytes, uint32_t *stood, size_t numbers);

/* Puts one place to a replay state over a text: kind 2, 3 or 4. Kept is answered with the number of those who stood by, the one that eon_replay writes
 * at that place of a run. Broken is answered with the number of places kept so far, or with 0 where the state
 * does not fit the text.
 *
 * session has EON_SESSION cells: 255 atomic states of the objects in order of creation, then the number of objects, the stages met,
 * the first carried object, the second (each 255 for none), and the number of places kept. The carried variables are those that stand in two or more
 * stages, in order of first appearance in the question, stage by stage; each gets its object at the first stage that has it, and the two may be one
 * object. A cell that no carried variable uses has 255 or an object that was created, and stays. The state before the first place has 255 for both
 * carried objects and 0 in every other cell. It is updated if the place is kept, and left as it was after every other answer. */
uint64_t eon_place(const uint8_t *text, size_t bytes, uint32_t *session, uint32_t place, uint8_t *work, size_t work_bytes);

/* Clause i of an accepted text, from 0: its line * 4, and 1 for a rule, 2 for a `new` line, 3 for a `next` line. 0 where the text has no such clause,
 * or is refused. */
uint64_t eon_line(const uint8_t *text, size_t bytes, size_t i);

/* Reads a hand-in: kind 5, 9 or 10; kind 2 with number 12 and line 0 where the run table has under EON_RUN places.
 *
 * run is written only for kind 10, and only its first places: the numbers of the hand-in's run. */
uint64_t eon_handin(const uint8_t *handin, size_t length, uint32_t *run, size_t places);

/* Marks a hand-in to a text: kind 2, 5, 6, 7 or 8. A refusal of the text other than 15 comes before what the hand-in says. A hand-in that says no is
 * right exactly if the question is unreached, and one that says yes exactly if its run is kept; a run that breaks is of kind 8 if the question is
 * reached, else of kind 7. Where more than 127 non-empty atomic states are reachable there is no verdict: a run that is kept is right all the same, and
 * a no, or a run that breaks, is refused 15 with line 0.
 *
 * run and stood are tables lent for writing. Where the text is accepted or refused 15, and the hand-in says yes, run gets the numbers of its run, as
 * from eon_handin, and stood the numbers of those who stood by, as from eon_replay. Otherwise both are left as they were, and so are all other places
 * of them. */
uint64_t eon_mark(const uint8_t *text, size_t bytes, const uint8_t *handin, size_t length, uint8_t *work, size_t work_bytes, uint32_t *run, size_t places, uint32_t *stood, size_t numbers);

/* Finds the fewest of the listed lines whose removal makes the question unreached: kind 2, 11 or 12. lines has the numbers of up to EON_STRUCK `new` and
 * `next` lines, in any order. Among equally small choices it is the one whose rising line numbers come first: 3 and 9 come before 4 and 5. Removing lines
 * renumbers none. Kind 11 with value 0 says that the question is unreached already, and kind 12 that it is reached with all listed lines struck.
 * 19 comes after the checks of the text's lines, and before 15, which speaks of the text with nothing struck.
 *
 * out has EON_STRUCK cells, and all of them are written: the lines to strike by rising number, with zeros behind them. Beside every other answer all
 * are 0. */
uint64_t eon_cure(const uint8_t *text, size_t bytes, const uint32_t *lines, size_t count, uint8_t *work, size_t work_bytes, uint32_t *out);

/* Counts the 2^count ways to keep some of the listed lines and strike the rest, all kept and all struck among them: kind 2 or 13. It is refused as
 * eon_cure is.
 *
 * out has EON_COUNTS cells, and all of them are written: with how many of the ways the question is reached, with how many it is unreached, the reached
 * share in whole hundredths, and its remainder, which is below 2^count: 100 * out[0] = out[2] * 2^count + out[3]. After a refusal all are 0. */
uint64_t eon_tally(const uint8_t *text, size_t bytes, const uint32_t *lines, size_t count, uint8_t *work, size_t work_bytes, uint32_t *out);

/* Sets two sides on one object, and tells for each reachable atomic state who can force the outcome from there: kind 2 or 15.
 *
 * attacker and guardian have the numbers of up to EON_SIDE `next` lines each; a line may belong to both, and a list may be empty. The sides move in turn,
 * the attacker first. A move uses one own line that holds for the object, with one further object of every reachable atomic state standing by and never
 * changed. A side with no such line passes, and a side that has one must move. The attacker wins as soon as the object meets the question, before the
 * first move included and by either side's move; a play without end is the guardian's.
 *
 * states and moves have EON_STATES cells each, and all of them are written: the reachable states as from eon_analyze, value of them, and for each at the
 * same place the fewest moves, both sides' moves and passes counted, within which the attacker can force it, however the guardian plays; EON_GUARDIAN
 * where the guardian can hold out for ever. It is always one of the two. There are zeros behind them, and everywhere after a refusal.
 *
 * Refused besides, after the lines and before 15, in this order: 21 if a list is over EON_SIDE long or names a line that is no `next` line; 22 if the
 * question has not one stage with one variable. */
uint64_t eon_game(const uint8_t *text, size_t bytes, const uint32_t *attacker, size_t attacker_lines, const uint32_t *guardian, size_t guardian_lines, uint8_t *work, size_t work_bytes, uint32_t *states, uint32_t *moves);

/* Finds the fewest `next` steps by which one object gets from one atomic state to the other, with one further object of every reachable atomic state standing
 * by and never changed: kind 2, 16 or 17. From a state to itself it is 0 steps; a way has at most 127. Refused 23, after 15 and with the buffers as after
 * 15, if either state is not reachable; the empty state, 0, may be either end where it is.
 *
 * run is written only for kind 16, and only its first places: the line numbers of one such row of steps, one a place; which one is free. */
uint64_t eon_way(const uint8_t *text, size_t bytes, uint32_t from, uint32_t to, uint8_t *work, size_t work_bytes, uint32_t *run, size_t places);

/* What a line of an accepted text makes of an object in an atomic state: 2 * 2^32 + the state of the object that a `new` line creates, 3 * 2^32 + the
 * state that a `next` line gives to an object in `state`. 0 where the line is neither, or the text is refused. */
uint64_t eon_effect(const uint8_t *text, size_t bytes, uint32_t line, uint32_t state);

/* Declared relation i of an accepted text, from 0: from * 2^32 + size * 65,536 + code, where its name is the `size` bytes of the text from byte `from`
 * on. The code of the a-th state relation, from 0, is a; that of the k-th derived relation with n variables, from 0, is 32 * (n + 1) + k. 0 where the
 * text has no such relation, or is refused. */
uint64_t eon_relation(const uint8_t *text, size_t bytes, size_t i);

/* Literal k, from 0, of a `rule`, `new` or `next` line, which is stage 0, or of a stage of an `ask` line, from 1: from * 2^32 + to, where it is the
 * bytes of the line from byte `from` to before byte `to`. 0 where there is none. The line is without its byte 10; one over 16,384 bytes has none. */
uint64_t eon_literal(const uint8_t *line, size_t bytes, size_t stage, size_t k);

/* The name of variable j, from 0, of such a line or stage, in order of first appearance, those of a head first: the same number. */
uint64_t eon_variable(const uint8_t *line, size_t bytes, size_t stage, size_t j);

/* Writes the text for processes with Asbestos labels of one field: kind 2 or 14.
 *
 * Levels are star, 0, 1, 2, 3 in rising order, given as the numbers 0 to 4. kinds has EON_KINDS cells, three for each process kind: its send level, its
 * receive level, and 0, or any other number if it carries the marked message. The first `count` kinds are taken, and the cells behind them are not
 * read. port is the port level, level the asked receive level.
 *
 * Processes of each kind are created at any time and in any number. A message passes if the sender's send level is at most the receiver's receive level
 * and the port level. A receiver whose send level is star keeps it; any other takes the larger of the two send levels. All messages of a marked process
 * are marked, and so is each receiver of one. An analysis of the text, with buffers of the sizes above, is never refused, and is reached exactly if a
 * process of the asked receive level ever has the mark, from its creation or by a message.
 *
 * The text is written to the front of the output, and the bytes behind it are left as they were. It is refused 20 with line 0 if count is 0 or over 18,
 * if one of the levels taken is over 4, or if the output has under EON_TEXT bytes; all of it is then as it was. */
uint64_t eon_asbestos(const uint32_t *kinds, size_t count, uint32_t port, uint32_t level, uint8_t *output, size_t output_bytes);

#ifdef __cplusplus
}
#endif

#endif
