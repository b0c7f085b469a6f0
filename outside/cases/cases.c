/* Cases of the set questions, of the table on file, of the voting and of runs, by include/siren.h. The word given says which; standard input has a command to a
 * line, a letter and behind it a text or numbers, and what is answered goes to standard output, a line a case. What the lines of each kind say stands above the
 * function that does them. A letter that is none, and an answer that no case of the rules has, end the program with 1.
 *
 * Of the C library only read, write and _exit are used, which are declared here, so that the program can be compiled for a machine whose headers are not there. */
#include "siren.h"

long read(int from, void *room, size_t length);
long write(int to, const void *bytes, size_t length);
_Noreturn void _exit(int status);

#define OLD 0x5a5a5a5a5a5a5a5au

static char text[65536], said[65536];
static size_t text_length, said_length;
static const char *line;
static size_t length;
static uint64_t cells[6];
static uint64_t *const out = cells + 1;

/* Ends the program: what was said so far, and why there is no more. */
static _Noreturn void fail(const char *why)
{
    size_t n = 0;
    while (why[n] != 0)
        n++;
    if (write(1, said, said_length) < 0 || write(2, "cases: ", 7) < 0 || write(2, why, n) < 0 || write(2, "\n", 1) < 0)
        _exit(2);
    _exit(1);
}

static void say_byte(char x)
{
    if (said_length == sizeof said)
        fail("too much to say");
    said[said_length++] = x;
}

static void say(const char *words)
{
    for (; *words != 0; words++)
        say_byte(*words);
}

/* Says a number behind a space. */
static void number(uint64_t x)
{
    char digits[20];
    int n = 0;
    do {
        digits[n++] = (char)('0' + x % 10);
        x /= 10;
    } while (x != 0);
    say_byte(' ');
    while (n > 0)
        say_byte(digits[--n]);
}

static void pair(uint64_t x, uint64_t y)
{
    number(x);
    number(y);
}

/* Says the text of the line, from its third byte on. */
static void say_text(void)
{
    for (size_t i = 2; i < length; i++)
        say_byte(line[i]);
}

/* The number in word k of the line, the letter being word 0: its digits, whatever else stands among them. */
static uint64_t word(int k)
{
    uint64_t x = 0;
    for (size_t i = 0; i < length && k >= 0; i++) {
        if (line[i] == ' ')
            k--;
        else if (k == 0 && line[i] >= '0' && line[i] <= '9')
            x = 10 * x + (uint64_t)(line[i] - '0');
    }
    return x;
}

static uint8_t byte(int k)
{
    return (uint8_t)word(k);
}

/* The size in word k of the line, of at most what there is room for. */
static size_t size(int k, size_t room)
{
    return word(k) < room ? word(k) : room;
}

/* Where word k of the line points to, which must be one of so many places. */
static size_t place(int k, size_t places)
{
    if (word(k) >= places)
        fail("a place that there is not");
    return word(k);
}

/* `out` before a call: old numbers in every cell. */
static uint64_t *fresh(void)
{
    for (int i = 0; i < 6; i++)
        cells[i] = OLD;
    return out;
}

/* Of an answer all cells are written and none beside them; of a refusal they hold its place alone, of another answer none. The call has `values` values. */
static uint64_t answered(uint64_t answer, int values)
{
    if (cells[0] != OLD || cells[5] != OLD)
        fail("a cell beside out was written");
    if (answer == 0 && out[0] != 0)
        fail("an answer with a place");
    for (int i = 1; i < 4; i++)
        if ((answer != 0 || i > values) && out[i] != 0)
            fail("a value too many");
    return answer;
}

/* Says a refusal and answers that it is one. */
static int refused(uint64_t answer)
{
    if (answer == 0)
        return 0;
    say(" refused");
    pair(answer, out[0]);
    return 1;
}

static void yes_or_no(uint64_t answer)
{
    if (refused(answer))
        return;
    if (out[1] > 1)
        fail("neither yes nor no");
    say(out[1] == 1 ? " yes" : " no");
}

static void put(uint64_t *row, size_t places)
{
    row[place(1, places)] = word(2);
}

/* Says the numbers of a row from one place to another, those that there are. */
static void numbers(const uint64_t *row, uint64_t from, size_t to)
{
    for (; from < to; from++)
        number(row[from]);
}

static void bytes(const uint8_t *row, uint64_t from, size_t to)
{
    for (; from < to; from++)
        number(row[from]);
}

/* Set questions.
 *   # ..            a remark
 *   n FROM TO       the table is the numbers from one place to another of a row of zeros; each table has places of its own
 *   t AT X          number AT of the table becomes X
 *   q .. SET        a question, which is written and answered: is the set a quorum?
 *   b .. SET SITE   does the set block the site?
 *   l .. SET        the largest quorum inside the set, and its rounds
 *   s ..            do every two quorums have a common site?
 *   i .. SET        which sites are intact when those of the set are faulty? */
static void question(char letter)
{
    static uint64_t row[12288];
    static size_t from, to;
    const uint64_t *table = row + from;
    size_t n = to - from;
    uint64_t x = word(3);
    switch (letter) {
    case '#':
        return;
    case 'n':
        to = place(2, 12289);
        from = place(1, to + 1);
        return;
    case 't':
        put(row + from, n);
        return;
    }
    say_text();
    switch (letter) {
    case 'q':
        yes_or_no(answered(siren_quorum(table, n, x, fresh()), 1));
        break;
    case 'b':
        yes_or_no(answered(siren_blocks(table, n, x, word(4), fresh()), 1));
        break;
    case 'l':
        if (!refused(answered(siren_largest(table, n, x, fresh()), 2)))
            pair(out[1], out[2]);
        break;
    case 's':
        if (refused(answered(siren_shared(table, n, fresh()), 3)))
            break;
        if (out[1] > 1 || (out[1] == 1 && (out[2] != 0 || out[3] != 0)))
            fail("quorums that meet and do not");
        if (out[1] == 1)
            say(" meet");
        else
            pair(out[2], out[3]);
        break;
    case 'i':
        if (!refused(answered(siren_intact(table, n, x, fresh()), 1)))
            number(out[1]);
        break;
    default:
        fail("a letter that is none");
    }
    say("\n");
}

/* The number in four bytes, the lowest first. */
static uint32_t get32(const uint8_t *at)
{
    return at[0] | (uint32_t)at[1] << 8 | (uint32_t)at[2] << 16 | (uint32_t)at[3] << 24;
}

static void put32(uint8_t *at, uint32_t x)
{
    for (int i = 0; i < 4; i++)
        at[i] = (uint8_t)(x >> 8 * i);
}

/* Makes the check of a block right: two sums over its first 126 words; both start at 0, and for each word w, s becomes s + w, then t becomes t + s. */
static void mend(uint8_t *block)
{
    uint32_t s = 0, t = 0;
    for (int i = 0; i < 126; i++) {
        s += get32(block + 4 * i);
        t += s;
    }
    put32(block + 504, s);
    put32(block + 508, t);
}

/* Says the number of an answer, and the block or site that the refusal carries, or the number of sites. */
static void sites(uint64_t answer)
{
    pair(answered(answer, 1), answer == 0 ? out[1] : out[0]);
}

/* Reading and writing the table on file.
 *   # ..              a remark
 *   = NAME            the name of a case, which begins a line of what is written
 *   (an empty line)   ends the line
 *   T X               every number of the table becomes X
 *   t AT X            number AT of the table becomes X
 *   I X               every byte of the image becomes X
 *   i AT X            byte AT of the image becomes X
 *   m K               the check of block K is made right
 *   k                 the image is kept as it is
 *   b                 the image is again what was kept
 *   r BYTES NUMBERS   so many bytes of the image are read into so many numbers of the table; written are the number of the answer, 0 where the image was
 *                     taken, and the block or site that the refusal carries, or the number of sites
 *   w BYTES NUMBERS   so many numbers of the table are written into so many bytes of the image; the same
 *   W BYTES NUMBERS   the same without a word
 *   n AT              number AT of the table
 *   s AT              the number in four bytes of the image, from byte AT on
 *   c N X             how many of the first N numbers of the table are X
 *   e                 1 where the image is what was kept, 0 where it is not */
static void image(char letter)
{
    enum { TABLE = 4095, IMAGE = 33280 };
    static uint64_t table[TABLE];
    static uint8_t image[IMAGE], kept[IMAGE];
    uint64_t many = 0;
    size_t i;
    switch (letter) {
    case '#':
        break;
    case '=':
        say_text();
        break;
    case '\n':
        say("\n");
        break;
    case 'T':
        for (i = 0; i < TABLE; i++)
            table[i] = word(1);
        break;
    case 't':
        put(table, TABLE);
        break;
    case 'I':
        for (i = 0; i < IMAGE; i++)
            image[i] = byte(1);
        break;
    case 'i':
        image[place(1, IMAGE)] = byte(2);
        break;
    case 'm':
        mend(image + 512 * place(1, 64));
        break;
    case 'k':
        for (i = 0; i < IMAGE; i++)
            kept[i] = image[i];
        break;
    case 'b':
        for (i = 0; i < IMAGE; i++)
            image[i] = kept[i];
        break;
    case 'r':
        sites(siren_image_read(image, size(1, IMAGE), table, size(2, TABLE), fresh()));
        break;
    case 'w':
        sites(siren_image_write(table, size(2, TABLE), image, size(1, IMAGE), fresh()));
        break;
    case 'W':
        answered(siren_image_write(table, size(2, TABLE), image, size(1, IMAGE), fresh()), 1);
        break;
    case 'n':
        number(table[place(1, TABLE)]);
        break;
    case 's':
        number(get32(image + place(1, IMAGE - 3)));
        break;
    case 'c':
        for (i = 0; i < size(1, TABLE); i++)
            many += table[i] == word(2);
        number(many);
        break;
    case 'e':
        for (i = 0; i < IMAGE && image[i] == kept[i];)
            i++;
        number(i == IMAGE);
        break;
    default:
        fail("a letter that is none");
    }
}

/* The voting.
 *   # ..              a remark
 *   = TEXT            writes the text
 *   (an empty line)   ends the line that is written
 *   t AT X            number AT of the table becomes X
 *   s AT X            number AT of the state becomes X
 *   c NUMBERS STATE FAULTY KIND FROM TO SIDE
 *                     one call, on so many numbers of the table and of the state, with these sites faulty, and its answer
 *   o NUMBERS STATE FAULTY
 *                     whether the state is sound
 *   m FROM TO         writes the state from one place to another */
static void voting(char letter)
{
    enum { TABLE = 4032, STATE = 262 };
    static uint64_t table[TABLE], state[STATE];
    switch (letter) {
    case '#':
        break;
    case '=':
        say_text();
        break;
    case '\n':
        say("\n");
        break;
    case 't':
        put(table, TABLE);
        break;
    case 's':
        put(state, STATE);
        break;
    case 'c':
        if (!refused(answered(siren_step(table, size(1, TABLE), word(3), state, size(2, STATE), byte(4), byte(5), byte(6), byte(7), fresh()), 0)))
            say(" taken");
        break;
    case 'o':
        if (!refused(answered(siren_sound(table, size(1, TABLE), word(3), state, size(2, STATE), fresh()), 0)))
            say(" sound");
        break;
    case 'm':
        numbers(state, word(1), size(2, STATE));
        break;
    default:
        fail("a letter that is none");
    }
}

enum { CALLS = 4097, LIST = 4 * CALLS };

/* Puts the call of the line, its place and its four bytes, into a list. */
static void put_call(uint8_t *list)
{
    uint8_t *call = list + 4 * place(1, CALLS);
    for (int i = 0; i < 4; i++)
        call[i] = byte(2 + i);
}

/* Says the answer of a run: its passes or its refusal. */
static void ran(uint64_t answer)
{
    if (refused(answered(answer, 1)))
        return;
    say(" passes");
    number(out[1]);
}

/* The run of a list.
 *   # ..                     a remark
 *   = TEXT                   writes the text
 *   (an empty line)          ends the line that is written
 *   t AT X                   number AT of the table becomes X
 *   c AT KIND FROM TO SIDE   call AT of the list
 *   o X                      every number of the state and every answer becomes X
 *   r NUMBERS BYTES FAULTY STATE ANSWERS
 *                            the run of so many bytes of the list, on so many numbers of the table, with these sites faulty, in rooms for so many numbers
 *                            of the state and so many answers: its passes or its refusal
 *   m FROM TO                writes the state from one place to another
 *   a FROM TO                writes the answers from one place to another */
static void run(char letter)
{
    enum { TABLE = 252, STATE = 23 };
    static uint64_t table[TABLE], state[STATE];
    static uint8_t list[LIST], answers[CALLS];
    switch (letter) {
    case '#':
        break;
    case '=':
        say_text();
        break;
    case '\n':
        say("\n");
        break;
    case 't':
        put(table, TABLE);
        break;
    case 'c':
        put_call(list);
        break;
    case 'o':
        for (size_t i = 0; i < STATE; i++)
            state[i] = word(1);
        for (size_t i = 0; i < CALLS; i++)
            answers[i] = byte(1);
        break;
    case 'r':
        ran(siren_run(table, size(1, TABLE), word(3), list, size(2, LIST), state, size(4, STATE), answers, size(5, CALLS), fresh()));
        break;
    case 'm':
        numbers(state, word(1), size(2, STATE));
        break;
    case 'a':
        bytes(answers, word(1), size(2, CALLS));
        break;
    default:
        fail("a letter that is none");
    }
}

/* The run of a list of records beside the run of its bytes.
 *   # ..                     a remark
 *   = TEXT                   writes the text
 *   (an empty line)          ends the line that is written
 *   t AT X                   number AT of the table becomes X
 *   c AT KIND FROM TO SIDE   call AT of the list
 *   b BYTES FAULTY STATE ANSWERS S A
 *                            the run of so many bytes of the list, with these sites faulty, in rooms for so many numbers of the state and so many answers,
 *                            all nines; written are the answer, the state from number S on, and the answers from A on
 *   r ..                     the same as a list of records */
static void records(char letter)
{
    enum { TABLE = 315, STATE = 27 };
    static uint64_t table[TABLE], state[STATE];
    static uint8_t list[LIST], answers[CALLS];
    static siren_call calls[CALLS];
    size_t end = size(1, LIST), s = size(3, STATE), a = size(4, CALLS);
    switch (letter) {
    case '#':
        return;
    case '=':
        say_text();
        return;
    case '\n':
        say("\n");
        return;
    case 't':
        put(table, TABLE);
        return;
    case 'c':
        put_call(list);
        return;
    }
    for (size_t i = 0; i < STATE; i++)
        state[i] = 9;
    for (size_t i = 0; i < CALLS; i++)
        answers[i] = 9;
    for (size_t i = 0; i < CALLS; i++)
        calls[i] = (siren_call){list[4 * i], list[4 * i + 1], list[4 * i + 2], list[4 * i + 3]};
    if (letter == 'b')
        ran(siren_run(table, TABLE, word(2), list, end, state, s, answers, a, fresh()));
    else if (letter == 'r')
        ran(siren_run_records(table, TABLE, word(2), calls, end / 4, state, s, answers, a, fresh()));
    else
        fail("a letter that is none");
    say(" state");
    numbers(state, word(5), s);
    say(" answers");
    bytes(answers, word(6), a);
}

static const struct {
    const char *name;
    void (*command)(char letter);
} kinds[] = {{"questions", question}, {"image", image}, {"voting", voting}, {"run", run}, {"records", records}};

static int same(const char *a, const char *b)
{
    for (; *a != 0 && *a == *b; a++)
        b++;
    return *a == *b;
}

int main(int count, char **words)
{
    void (*command)(char letter) = 0;
    for (size_t i = 0; i < sizeof kinds / sizeof *kinds; i++)
        if (count == 2 && same(words[1], kinds[i].name))
            command = kinds[i].command;
    if (command == 0)
        fail("questions, image, voting, run or records?");
    for (long got = 1; got > 0; text_length += (size_t)got) {
        got = read(0, text + text_length, sizeof text - text_length);
        if (got < 0)
            fail("standard input cannot be read");
    }
    if (text_length == sizeof text)
        fail("too many lines");
    for (size_t at = 0; at < text_length; at += length + 1) {
        for (length = 0; at + length < text_length && text[at + length] != '\n';)
            length++;
        line = text + at;
        command(length == 0 ? '\n' : *line);
    }
    return write(1, said, said_length) == (long)said_length ? 0 : 1;
}
