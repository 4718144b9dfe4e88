/*
** sparrowhem.h: build, find, one pattern or a sheet of them, and replace, in
** programme trees that are kept as rows of symbols; the file in which stations
** exchange them; and the bar form in which a post house sends one.
**
** ALPHABET, ROW, TABLE, CLASSES
**
** A programme is an ordered tree.  Symbol k of an alphabet has the arity at
** place k of the alphabet: each node that bears it has that many children.
** A tree is kept as a ROW: the root's symbol, then the rows of its children
** from left to right.  Positions count from 0.  Two lists stand beside a row:
** its TABLE, in which entry p is the position just after the last symbol of
** the subtree that begins at position p, and its CLASSES, in which class p is
** the first position whose subtree is equal to the one at p: the same symbols
** in the same order.  So two positions have one class exactly if their
** subtrees are equal.
**
**     alphabet   0 0 1 2 3     symbols 0 and 1 are leaves, 2 has one child,
**                              3 has two, 4 has three
**     row        4 3 0 0 2 1 3 0 0
**     table      9 4 3 4 6 6 9 8 9
**     classes    0 1 2 2 4 5 1 2 2
**
** The caller has nothing to work out for either list: it lends a buffer with
** room for as many numbers as the row has, build fills it, replace keeps it,
** and in between it is stored as it is and handed back.  A list that is no
** longer the row's is told from one that is, and refused.
**
** PATTERN
**
** A row whose leaves may also be the blank SPARROWHEM_ANY (S in refusals),
** which stands for any one subtree, each on its own, or a variable
** SPARROWHEM_VARIABLE(0) to SPARROWHEM_VARIABLE(15); equal variables stand
** for equal subtrees.
**
** SHEET
**
** Up to 64 patterns that are looked for in one row by one call.  They are laid
** END TO END in one list, with nothing between them, and a second list has
** their LENGTHS, in the same order.  Patterns are numbered from 0.  The call
** writes two outputs: the POSITIONS of all patterns, and a RESULT for each,
** which is three numbers.
**
**     patterns   3 X X 1 2 9   the patterns 3 X X, then 1, then 2 9; X is
**                              SPARROWHEM_VARIABLE(0)
**     lengths    3 1 2
**     positions  1 6 5         in the row above: pattern 0 matches at 1 and 6,
**                              pattern 1 at 5; pattern 2 is refused
**     results    0 0 2         refusal 0, place 0, count 2
**                0 0 1
**                13 1 0        refusal 13 at place 1: 9 is no symbol
**
** CATALOGUE FILE
**
** A catalogue is an alphabet and up to 256 programmes over it, each with a
** NUMBER of 32 bits and a row; the numbers rise strictly.  Its file has at
** most 65536 bytes.  All numbers in it have the low byte first:
**
**     head       2 bytes    n, how many programmes
**                2 bytes    s, how many symbols the alphabet has
**     contents   12 bytes   an ENTRY for each programme: its number, the byte
**                           where its row starts, counted from the begin of
**                           the file, its length in symbols; 4 bytes each
**     arities    1 byte     for each symbol of the alphabet
**     rows       2 bytes    for each symbol of each row, in the order of the
**                           contents, without gaps; the last ends the file
**
** Each catalogue has one file: two are the same exactly if their files are.
** The calls open nothing and store nothing: a file is bytes that the caller
** lends.  docs/CATALOGUE-FILE.md is for somebody who writes another reader.
**
** A file that was read is gone on with as it stands.  The row of entry e is
** lent to build, find and sheet in its place, `file + e.start, 2 * e.length`.
** It may begin at an odd address.  Replace changes the row that it is lent, so
** it gets a copy.  Only the arities have to be widened, to two bytes each:
**
**     n = sparrowhem_get(file, 0);
**     s = sparrowhem_get(file, 1);
**     for( k=0; k<s; k++ ){
**       sparrowhem_put(arities, k, file[4 + 12*n + k]);
**     }
**
** BAR FORM
**
** A tree as a post house sends it: the root's symbol, then the bar forms of
** its children from left to right, then the BAR, SPARROWHEM_BAR, which closes
** the node.  So a bar form says by itself where each node ends.
**
**     alphabet   0 1 2
**     row        2 2 0 1 0 1 0
**     bar form   2 2 0 | 1 0 | | | 1 0 | | |      | is the bar, 65534
**
** Each row has one bar form, of twice its length: a bar for each symbol.
** Without its bars it is the row again.  A node has as many children as its
** symbol's arity says, in a bar form as in a row: one that is closed with
** fewer, or holds one more, is refused.
**
** NUMBERS ARE LENT AS BYTES
**
** Every list of numbers (alphabet, row or rows, bar form, table, classes,
** pattern or patterns, a sheet's lengths, replacement, each output) is lent as
** a pointer and a count of BYTES.  Each number takes two bytes, the low one
** first, on every machine.  An odd last byte is neither counted nor written:
** 17 bytes are 8 numbers.  The bytes may begin at any address, odd ones too.
** A null pointer with count 0 is an empty list.  Lengths, positions and places
** count NUMBERS, not bytes; only a file's length and places in a file count
** bytes.
**
** On a little-endian machine an array of uint16_t is such a list as it
** stands: `(const uint8_t *)row, 2 * n` lends its first n numbers, and
** `(uint8_t *)table, 2 * n` lends it to be written.  Elsewhere
** sparrowhem_get and sparrowhem_put read and write a number of a list.
**
** Three lists of the calls on catalogue files are wider: the records, and the
** programmes' numbers and lengths that are written.  They are arrays of
** sparrowhem_entry and of uint32_t, the machine's own numbers, and are lent
** with a count of ELEMENTS.  A null pointer with count 0 is empty there too.
**
** EVERY INPUT IS ANSWERED
**
** No call asks anything of the numbers that it is lent: whatever they are,
** it ends, and it answers or refuses.  A call that refuses has written no
** byte.  A call that answers has written what is said below, and no other
** byte.
**
** WHAT THE CALLER SEES TO
**
** Each pointer leads to at least as many bytes, or elements, as its count
** says.  One to elements is aligned as C has it.  A buffer that a call writes
** overlaps no other buffer of that call; lists that are only read may overlap
** or be the same.
**
** OWNERSHIP AND THREADS
**
** The lists stay the caller's.  No call allocates, keeps a pointer, or has
** any state, so all of them can run in any thread at the same time.  While a
** call runs, no other thread may write the lists that it was lent, nor read
** those that it writes.
**
** STACK
**
** sparrowhem_build and the two calls on catalogue files work on the lent bytes
** themselves, the others on copies on the stack.  They need less than
**
**     sparrowhem_build    6 KiB for any row, whether it answers or refuses: a
**                         task with 8 KiB can call it
**     sparrowhem_find     192 KiB, 12 KiB for rows of at most 256 symbols, if
**                         the pattern is not too long
**     sparrowhem_sheet    268 KiB, 16 KiB for rows of at most 256 symbols, if
**                         there are not too many lengths
**     sparrowhem_replace  228 KiB, 12 KiB for rows of at most 256 symbols, if
**                         what replaces a part has at most 256 too
**     sparrowhem_catalogue_read, sparrowhem_catalogue_write
**                         3 KiB for any file, whether they answer or refuse
**     sparrowhem_bars_read, sparrowhem_bars_write
**                         176 KiB, 8 KiB for rows of at most 512 symbols and
**                         for bar forms of at most 1024 numbers
**
** SINCE VERSION 2.2
**
** sparrowhem_bars_read and sparrowhem_bars_write are new, and with them the
** refusals 70, 71 and 72; the words of refusals 4, 5 and 7 speak of bar forms
** too.  Nothing else has changed: what was written for 2.2 compiles and runs
** as it did.
**
** SINCE VERSION 2.1
**
** sparrowhem_catalogue_read and sparrowhem_catalogue_write are new, and with
** them their two structs, and the refusals 65 to 69 and 88.  Nothing else has
** changed: what was written for 2.1 compiles and runs as it did.
**
** SINCE VERSION 2.0
**
** sparrowhem_sheet is new, and with it the refusals 63 and 64; the words of
** refusal 19 speak of its outputs too.  Nothing else has changed: what was
** written for 2.0 compiles and runs as it did.
**
** SINCE VERSION 1
**
** Build, find and replace take the classes, straight after the table; a call
** without them no longer compiles.  A host lends a second buffer of the size
** of the table beside each table that it keeps, and has build fill both anew
** where it has stored rows and tables alone.  Refusal 62 is new; 6 and 18
** count the classes too.
*/
#ifndef SPARROWHEM_H
#define SPARROWHEM_H

#include <stddef.h>
#include <stdint.h>

#ifdef __cplusplus
extern "C" {
#endif

/*
** The version: as a string, and as a number that grows with it, a million for
** the first part, a thousand for the second, one for the third.
*/
#define SPARROWHEM_VERSION        "2.3.0"
#define SPARROWHEM_VERSION_NUMBER 2003000

/*
** Limits: symbols in an alphabet, an arity, numbers in a row or in a
** replacement, numbers in a pattern, patterns in a sheet, programmes in a
** catalogue, bytes in its file, numbers in a bar form.
*/
#define SPARROWHEM_MOST_SYMBOLS    1024
#define SPARROWHEM_MOST_ARITY      15
#define SPARROWHEM_MOST_ROW        16384
#define SPARROWHEM_MOST_PATTERN    256
#define SPARROWHEM_MOST_SHEET      64
#define SPARROWHEM_MOST_PROGRAMMES 256
#define SPARROWHEM_MOST_FILE       65536
#define SPARROWHEM_MOST_BARS       32768

/*
** How many numbers a sheet's result has for each pattern: refusal or 0, place
** or 0, count.
*/
#define SPARROWHEM_RESULT_NUMBERS 3

/*
** In a pattern: any one subtree, and variable i, from 0 to 15.
*/
#define SPARROWHEM_ANY         65535u
#define SPARROWHEM_VARIABLE(i) (65280u + (i))

/*
** In a bar form: the bar, which closes a node.
*/
#define SPARROWHEM_BAR 65534u

/*
** What replace leaves in the places that it frees.
*/
#define SPARROWHEM_FREED_ROW   65535u
#define SPARROWHEM_FREED_TABLE 0u
#define SPARROWHEM_FREED_CLASS 0u

/*
** Why a call refuses, each with the place that it gives.
**
** Where several apply, the first in this order is given: 1 to 10; then 62;
** then 11 to 15, or 63, 64, or 24, 25, 27, 28, 29; then 17, 18, 19.  A row, a
** pattern or a replacement is read from left to right, up to its first fault;
** a number that stands behind the tree's end is 9, 15 or 29, whatever it is.
**
** A sheet is never refused with 11 to 15: these stand in the result of the
** pattern that they are about.  The two calls on catalogue files have an order
** of their own, and so has the reader of bar forms; it stands with each.
*/
enum {
  SPARROWHEM_ANSWERED          = 0,

  /* the alphabet is empty or has over 1024 symbols: its length */
  SPARROWHEM_ALPHABET_SIZE     = 1,
  /* an arity is over 15: the first such symbol */
  SPARROWHEM_ARITY_OVER        = 2,
  /* no symbol has arity 0: 0 */
  SPARROWHEM_NO_LEAF           = 3,

  /* the row's length is 0, or a bar form's that is read: 0 */
  SPARROWHEM_ROW_EMPTY         = 4,
  /* the row's length is over 16384, or that of a bar form that is read over
  ** 32768: the length */
  SPARROWHEM_ROW_LONG          = 5,
  /* the table, the classes, or in replace the row's buffer, is shorter than
  ** the row: the row's length */
  SPARROWHEM_BUFFER_SHORT      = 6,
  /* a number in the row is no symbol, or in a bar form that is read neither a
  ** symbol nor the bar: its position */
  SPARROWHEM_ROW_STRAY         = 7,
  /* the row ends before its tree does: the row's length */
  SPARROWHEM_ROW_EARLY         = 8,
  /* the row goes on after its tree: the first position after the tree */
  SPARROWHEM_ROW_EXTRA         = 9,
  /* an entry of the table is not the row's: the first such position */
  SPARROWHEM_STALE             = 10,

  /* as 4, 5, 7, 8, 9, for the pattern, which is too long over 256 */
  SPARROWHEM_PATTERN_EMPTY     = 11,
  SPARROWHEM_PATTERN_LONG      = 12,
  SPARROWHEM_PATTERN_STRAY     = 13,
  SPARROWHEM_PATTERN_EARLY     = 14,
  SPARROWHEM_PATTERN_EXTRA     = 15,

  /* the position is not below the row's length: the position */
  SPARROWHEM_POSITION          = 17,
  /* the new row would be over 16384 long, or longer than its buffer, the table
  ** or the classes: its length */
  SPARROWHEM_TOO_LONG          = 18,
  /* there are more matches than places in the output: the number of matches;
  ** in a sheet also, and before that, there are fewer places for the results
  ** than three a pattern: three times the number of the patterns; of a
  ** catalogue, there are fewer records than programmes: the number of the
  ** programmes, or fewer bytes than the file takes: the file's length; of a
  ** bar form, there are fewer places than the row that is read has symbols:
  ** the row's length, or than the bar form that is written has numbers: twice
  ** the row's length */
  SPARROWHEM_OUTPUT_SHORT      = 19,

  /* as 4, 5, 7, 8, 9, for the replacement */
  SPARROWHEM_REPLACEMENT_EMPTY = 24,
  SPARROWHEM_REPLACEMENT_LONG  = 25,
  SPARROWHEM_REPLACEMENT_STRAY = 27,
  SPARROWHEM_REPLACEMENT_EARLY = 28,
  SPARROWHEM_REPLACEMENT_EXTRA = 29,

  /* a class is not the row's: the first such position */
  SPARROWHEM_STALE_CLASS       = 62,

  /* a sheet has no length, or over 64 of them: how many it has */
  SPARROWHEM_SHEET_SIZE        = 63,
  /* the lengths of a sheet do not add up to the numbers lent as patterns: how
  ** many numbers are lent as patterns */
  SPARROWHEM_SHEET_SUM         = 64,

  /* the file is too short for its head, contents and arities: its length */
  SPARROWHEM_FILE_SHORT        = 65,
  /* the file is over 65536 bytes long, or would be: its length */
  SPARROWHEM_FILE_LONG         = 66,
  /* a programme's number is not above the one before it: read, the first byte
  ** of its entry; write, its place among the numbers */
  SPARROWHEM_NUMBER_ORDER      = 67,
  /* read: a row does not start where the one before it ended, the first not
  ** behind the arities, or it goes past the end of the file: the first byte of
  ** its entry; write: the lengths are not as many as the numbers, or do not
  ** add up to the symbols of the rows: how many symbols the rows have */
  SPARROWHEM_ROW_BOUNDS        = 68,
  /* bytes are left over behind the last row, or behind the arities where there
  ** is no programme: the first of these bytes */
  SPARROWHEM_FILE_EXTRA        = 69,

  /* a bar form has a bar where no node is open, which is at its front, or goes
  ** on, with whatever number, behind the bar that closes the root: the
  ** position of that number */
  SPARROWHEM_BARS_NOTHING_OPEN = 70,
  /* a bar closes a node that has fewer children than its symbol's arity says:
  ** the bar's position; or a node that has as many goes on with a number that
  ** is no bar, whether a symbol or not: that number's position */
  SPARROWHEM_BARS_CHILDREN     = 71,
  /* a bar form ends before the bar that closes the root: its length */
  SPARROWHEM_BARS_UNCLOSED     = 72,

  /* there are over 256 programmes: how many */
  SPARROWHEM_PROGRAMMES_OVER   = 88
};

/*
** What a refusal's number means, in words, for a log.  The words stay for
** good: they need not be copied.
*/
static inline const char *sparrowhem_refusal_text(uint32_t refusal){
  switch( refusal ){
    case SPARROWHEM_ANSWERED:
      return "the call has answered";
    case SPARROWHEM_ALPHABET_SIZE:
      return "the alphabet has no symbol, or more than 1,024";
    case SPARROWHEM_ARITY_OVER:
      return "an arity is above 15";
    case SPARROWHEM_NO_LEAF:
      return "every arity is above 0";
    case SPARROWHEM_ROW_EMPTY:
      return "the row length is 0, or that of the bar form";
    case SPARROWHEM_ROW_LONG:
      return "the row length is above 16,384, or that of the bar form above "
             "32,768";
    case SPARROWHEM_BUFFER_SHORT:
      return "the table, the classes, or for replace the buffer that holds "
             "the row, has fewer places than the row length";
    case SPARROWHEM_ROW_STRAY:
      return "the row, or the bar form, holds a number that is no symbol";
    case SPARROWHEM_ROW_EARLY:
      return "the row is at its end and its tree is not";
    case SPARROWHEM_ROW_EXTRA:
      return "the tree is at its end and the row is not";
    case SPARROWHEM_STALE:
      return "the table is stale: an entry is not the row's";
    case SPARROWHEM_PATTERN_EMPTY:
      return "the pattern has length 0";
    case SPARROWHEM_PATTERN_LONG:
      return "the pattern is longer than 256";
    case SPARROWHEM_PATTERN_STRAY:
      return "the pattern holds a number that is no symbol, nor S, nor a "
             "variable";
    case SPARROWHEM_PATTERN_EARLY:
      return "the pattern is at its end and its tree is not";
    case SPARROWHEM_PATTERN_EXTRA:
      return "the tree is at its end and the pattern is not";
    case SPARROWHEM_POSITION:
      return "the position is the row length or more";
    case SPARROWHEM_TOO_LONG:
      return "the row would after the replacement be longer than 16,384, "
             "than its buffer, than the table or than the classes";
    case SPARROWHEM_OUTPUT_SHORT:
      return "the output, or one of the two of a sheet, has too few places";
    case SPARROWHEM_REPLACEMENT_EMPTY:
      return "the replacement has length 0";
    case SPARROWHEM_REPLACEMENT_LONG:
      return "the replacement is longer than 16,384";
    case SPARROWHEM_REPLACEMENT_STRAY:
      return "the replacement holds a number that is no symbol";
    case SPARROWHEM_REPLACEMENT_EARLY:
      return "the replacement is at its end and its tree is not";
    case SPARROWHEM_REPLACEMENT_EXTRA:
      return "the tree is at its end and the replacement is not";
    case SPARROWHEM_STALE_CLASS:
      return "the classes are stale: one is not the row's";
    case SPARROWHEM_SHEET_SIZE:
      return "the sheet has no pattern, or more than 64";
    case SPARROWHEM_SHEET_SUM:
      return "the lengths of the sheet do not add up to the numbers lent as "
             "patterns";
    case SPARROWHEM_FILE_SHORT:
      return "the file is too short for its head, its contents and its "
             "arities";
    case SPARROWHEM_FILE_LONG:
      return "the file is longer than 65,536 bytes, or would be";
    case SPARROWHEM_NUMBER_ORDER:
      return "a programme's number is not above the one before it";
    case SPARROWHEM_ROW_BOUNDS:
      return "a row does not start at the next free byte of the file, or goes "
             "past its end; or the lengths are not as many as the numbers, or "
             "do not add up to the rows";
    case SPARROWHEM_FILE_EXTRA:
      return "bytes are left over behind the last row, or behind the arities "
             "where there is no programme";
    case SPARROWHEM_BARS_NOTHING_OPEN:
      return "a bar stands where no node is open, or the bar form goes on "
             "behind the root's bar";
    case SPARROWHEM_BARS_CHILDREN:
      return "a node is closed with fewer children than its arity, or has a "
             "child too many";
    case SPARROWHEM_BARS_UNCLOSED:
      return "the bar form is at its end and the root is not closed";
    case SPARROWHEM_PROGRAMMES_OVER:
      return "there are more than 256 programmes";
    default:
      return "no call gives this number";
  }
}

/*
** Number i of a list that is lent as bytes: read, and written.  The list has
** more than i numbers.
*/
static inline uint16_t sparrowhem_get(const uint8_t *list, size_t i){
  return (uint16_t)(list[2*i] | list[2*i + 1]<<8);
}

static inline void sparrowhem_put(uint8_t *list, size_t i, uint16_t number){
  list[2*i] = (uint8_t)(number & 255u);
  list[2*i + 1] = (uint8_t)(number>>8);
}

/*
** An answer: 24 bytes, returned by value.
**
**              answered                       refused
**   refusal    0                              the refusal's number
**   change     replace: new length minus      0
**              old length; else 0
**   place      0                              the refusal's place
**   count      what the call counts           0
*/
typedef struct {
  uint32_t refusal;
  int32_t change;
  uint64_t place;
  uint64_t count;
} sparrowhem_answer;

/*
** Build: writes the table of the row to the front of `table`, and its classes
** to the front of `classes`.
**
** `count` is the row's length.  Numbers of both lists behind it stay.  What
** they held before is not looked at.
**
** Refuses with 1 to 9.
*/
sparrowhem_answer sparrowhem_build(
  const uint8_t *arities, size_t arities_bytes,
  const uint8_t *row,     size_t row_bytes,
  uint8_t *table,         size_t table_bytes,
  uint8_t *classes,       size_t classes_bytes
);

/*
** Find: writes the positions at which the pattern matches, rising, to the
** front of `out`.
**
** `count` is their number.  Numbers of the output behind them stay.  Matches
** may overlap and nest; all are listed.  Numbers of table and classes behind
** the row's length are not looked at.
**
** Refuses with 1 to 10, 62, 11 to 15 and 19.  Where nothing matches, an
** output without places is enough.
*/
sparrowhem_answer sparrowhem_find(
  const uint8_t *arities, size_t arities_bytes,
  const uint8_t *row,     size_t row_bytes,
  const uint8_t *table,   size_t table_bytes,
  const uint8_t *classes, size_t classes_bytes,
  const uint8_t *pattern, size_t pattern_bytes,
  uint8_t *out,           size_t out_bytes
);

/*
** Sheet: looks for each pattern of a sheet in one row.  Alphabet, row, table
** and classes are checked once, and then each pattern is answered as find
** would answer it alone.
**
** `patterns` has the patterns end to end, and `lengths` has how many numbers
** each takes; there are as many patterns as lengths, 1 to 64.
**
** To the front of `positions` go the positions of pattern 0, rising, then
** those of pattern 1, and so on, with no gap.  To the front of `results` go
** three numbers for each pattern i:
**
**     number 3*i        0, or the refusal of this pattern, 11 to 15
**     number 3*i + 1    0, or the refusal's place, counted from this
**                       pattern's own begin
**     number 3*i + 2    how many positions this pattern has; 0 if refused
**
** So the positions of a pattern begin where the counts of those before it add
** up to.  `count` is all positions together.  Numbers of both outputs behind
** what is written stay.
**
** A pattern's own fault never refuses the call: it stands in the pattern's
** result, the pattern adds no position, and the others are answered.  A length
** of 0 is such a fault (11, place 0), and so is one over 256 (12, the length).
**
** Refuses with 1 to 10, 62, 63, 64, then 19 for the results, then 19 for the
** positions, and then has written nothing in either output.  Three numbers a
** pattern are always enough for the results, and the row's length times the
** number of the patterns, at most 1048576, for the positions; where nothing
** matches, positions without places are enough.
*/
sparrowhem_answer sparrowhem_sheet(
  const uint8_t *arities,  size_t arities_bytes,
  const uint8_t *row,      size_t row_bytes,
  const uint8_t *table,    size_t table_bytes,
  const uint8_t *classes,  size_t classes_bytes,
  const uint8_t *patterns, size_t patterns_bytes,
  const uint8_t *lengths,  size_t lengths_bytes,
  uint8_t *positions,      size_t positions_bytes,
  uint8_t *results,        size_t results_bytes
);

/*
** Replace: in the row of the first `row_length` numbers of the buffer `row`,
** whose table and classes stand at the front of `table` and `classes`, the
** subtree at `position` gives way to the row `replacement`.  All three are
** changed in place: table and classes are then those of the new row.
**
** `count` is the row's new length, which is passed as `row_length` from then
** on, and `change` the new length minus the old one.  Where the row gets
** shorter, the places from the new length up to the old one hold
** SPARROWHEM_FREED_ROW in the row, SPARROWHEM_FREED_TABLE in the table and
** SPARROWHEM_FREED_CLASS in the classes.  Numbers behind these stay.
**
** Refuses with 1 to 10, 62, 24, 25, 27, 28, 29, 17 and 18.  Putting the old
** subtree straight back is never refused.
*/
sparrowhem_answer sparrowhem_replace(
  const uint8_t *arities,     size_t arities_bytes,
  uint8_t *row,               size_t row_bytes,
  uint8_t *table,             size_t table_bytes,
  uint8_t *classes,           size_t classes_bytes,
  uint64_t row_length,
  const uint8_t *replacement, size_t replacement_bytes,
  uint64_t position
);

/*
** A record: an entry of a catalogue file's contents, 12 bytes.
**
**   programme  the programme's number
**   start      the byte of the file where its row starts
**   length     how many symbols the row has
*/
typedef struct {
  uint32_t programme;
  uint32_t start;
  uint32_t length;
} sparrowhem_entry;

/*
** An answer on a catalogue file: 24 bytes, returned by value.
**
**              answered                       refused
**   refusal    0                              the refusal's number
**   programme  0                              with 4, 5, 7, 8, 9 the number of
**                                             the programme; else 0
**   place      0                              the refusal's place; with these
**                                             five in that programme's row
**   count      read: how many programmes;     0
**              write: the file's length
**
** A programme may have the number 0: whether a row is at fault is told by the
** refusal, not by `programme`.
*/
typedef struct {
  uint32_t refusal;
  uint32_t programme;
  uint64_t place;
  uint64_t count;
} sparrowhem_catalogue;

/*
** Catalogue read: checks all of a file, and writes the entries of its contents
** to the front of `entries`.
**
** `count` is how many programmes there are, and so how many records were
** written.  Records behind them stay.  No row is copied: it is reached through
** its record, as said above, and nothing has to be checked before.  The whole
** file is lent, and not a byte more.
**
** Refuses with
**
**     66, 65, 88        for the file's size and its head
**     1, 2, 3           for the alphabet; an arity of 16 to 255 is a 2
**     67, 68, 69        for the contents: every entry is looked at for 67
**                       before any is for 68
**     4, 5, 7, 8, 9     for the first faulty row, in the order of the contents
**     19                for the records
**
** and in this order.  256 records are always enough; for a file without
** programmes none is needed.
*/
sparrowhem_catalogue sparrowhem_catalogue_read(
  const uint8_t *file,       size_t file_bytes,
  sparrowhem_entry *entries, size_t entries_count
);

/*
** Catalogue write: writes the file of a catalogue to the front of `file`.
**
** `numbers` has the programmes' numbers, strictly rising, `lengths` how many
** symbols the row of each has, in the same order, and `rows` has the rows end
** to end, with nothing between them.  Where each row starts is worked out.
** `arities` is the alphabet as every call has it, two bytes a symbol, and so
** are the rows.
**
** `count` is the file's length: 4 bytes, 12 for each programme, 1 for each
** symbol of the alphabet, 2 for each symbol of the rows.  Bytes of the buffer
** behind it stay.
**
** Refuses with
**
**     88                for the programmes: how many numbers there are
**     1, 2, 3           for the alphabet
**     67                for the numbers
**     68                for the lengths; their sum is never cut off, and can be
**                       over 2^32
**     66                for the length of the file
**     4, 5, 7, 8, 9     for the first faulty row; a length of 0 is 4, and one
**                       over 16384 is 5
**     19                for the buffer
**
** and in this order.  65536 bytes are always enough.  A file that was written
** is never refused by read, but for 19.
*/
sparrowhem_catalogue sparrowhem_catalogue_write(
  const uint8_t *arities,  size_t arities_bytes,
  const uint32_t *numbers, size_t numbers_count,
  const uint32_t *lengths, size_t lengths_count,
  const uint8_t *rows,     size_t rows_bytes,
  uint8_t *file,           size_t file_bytes
);

/*
** Bars read: reads a bar form, and writes its row to the front of `row`.
**
** `count` is the row's length, which is half that of the bar form.  Numbers of
** the row's buffer behind it stay.  The row is right as it stands: build takes
** it under the same alphabet, and refuses it only for want of room, with 6.
** The whole bar form is lent, and not a number more.
**
** Refuses with
**
**     1, 2, 3           for the alphabet
**     4, 5              for the length of the bar form: none, over 32768
**     70, 71, 7         for the first number, from left to right, that cannot
**                       stand where it does; where two apply to one number,
**                       the first in this order
**     72                for a bar form that ends before its root is closed
**     19                for the buffer: the row's length
**
** and in this order.  So a number that is neither a symbol nor the bar is 70
** behind the root's bar, 71 where a node has all its children, and else 7.
** 16384 places are always enough, and so are half as many as the bar form has
** numbers.
*/
sparrowhem_answer sparrowhem_bars_read(
  const uint8_t *arities, size_t arities_bytes,
  const uint8_t *bars,    size_t bars_bytes,
  uint8_t *row,           size_t row_bytes
);

/*
** Bars write: writes the bar form of a row to the front of `bars`.
**
** `count` is the length of the bar form, which is twice that of the row.
** Numbers of the buffer behind it stay.  Neither table nor classes are needed.
**
** Refuses with 1 to 5, 7, 8 and 9, as build does, and then with 19 for the
** buffer: twice the row's length.  32768 places are always enough.  A bar form
** that was written is never refused by read, but for 19, and gives the row.
*/
sparrowhem_answer sparrowhem_bars_write(
  const uint8_t *arities, size_t arities_bytes,
  const uint8_t *row,     size_t row_bytes,
  uint8_t *bars,          size_t bars_bytes
);

/*
** EXAMPLE
**
** The row 3 0 0 over the alphabet 0 0 1 2, and the places of all leaves 0:
**
**     const uint8_t arities[] = {0, 0, 0, 0, 1, 0, 2, 0};
**     const uint8_t row[] = {3, 0, 0, 0, 0, 0};
**     const uint8_t pattern[] = {0, 0};
**     uint8_t table[6], classes[6], out[6];
**     sparrowhem_answer a;
**     a = sparrowhem_build(arities, sizeof arities, row, sizeof row,
**                          table, sizeof table, classes, sizeof classes);
**     if( a.refusal == SPARROWHEM_ANSWERED ){
**       a = sparrowhem_find(arities, sizeof arities, row, sizeof row,
**                           table, sizeof table, classes, sizeof classes,
**                           pattern, sizeof pattern, out, sizeof out);
**     }
**     if( a.refusal != SPARROWHEM_ANSWERED ){
**       printf("refused: %s (%llu)\n", sparrowhem_refusal_text(a.refusal),
**              (unsigned long long)a.place);
**     }
**
** After this a.count is 2, and sparrowhem_get(out, 0) and (out, 1) are the
** positions 1 and 2.  host/example.c is a longer one, host/morning.c one of a
** sheet, host/exchange.c one of a catalogue file, and host/bars.c one of bar
** forms.
*/

#ifdef __cplusplus
}
#endif

#endif /* SPARROWHEM_H */
