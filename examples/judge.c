/*
 * Judges a byte connection between two other programs, and prints a verdict as soon as it is certain; at the end, what `osi judge`
 * prints. Its input is a capture as text: a line of hexadecimal digits for each piece, in the order in which the pieces passed.
 * A line that begins with a tab is of the side that was called, and one that begins with # is a comment.
 *
 *     cc -std=c99 $(pkg-config --cflags osi-session) judge.c $(pkg-config --libs osi-session) -o judge
 *     ./judge < disputes/restart.follow
 */
#include <osi.h>
#include <stdio.h>

/* A line of the input: the side, and its octets. */
struct piece {
    uint32_t side;
    size_t length;
    uint8_t octets[65536];
};

/* Feeds a piece, and prints the verdicts that are certain by then. Answers whether all of the piece has passed. */
static bool feed(osi_judge *judge, const struct piece *piece)
{
    osi_verdict verdict;
    char line[OSI_VERDICT_TEXT];
    size_t used; /* less than the length if memory ran out: feed the others again when there is some */
    if (osi_judge_feed(judge, piece->side, piece->octets, piece->length, &used) != OSI_OK)
        return false;
    while (osi_judge_next(judge, &verdict) == OSI_OK) {
        osi_verdict_text(&verdict, line, sizeof line);
        puts(line);
    }
    return true;
}

/* Prints the verdict on all that has passed: what `osi judge` prints for it. */
static void print_text(osi_judge *judge)
{
    osi_octets text;
    if (osi_judge_write(judge) != OSI_OK)
        return;
    osi_judge_text(judge, &text);
    fwrite(text.at, 1, text.length, stdout);
}

static int digit(char c)
{
    return c >= '0' && c <= '9' ? c - '0' : c >= 'a' && c <= 'f' ? c - 'a' + 10 : c >= 'A' && c <= 'F' ? c - 'A' + 10 : -1;
}

/* Reads a line. Answers whether there was one. */
static bool read_piece(struct piece *piece)
{
    static char line[131074];
    if (fgets(line, sizeof line, stdin) == NULL)
        return false;
    const char *at = line;
    piece->side = *at == '\t' ? OSI_RIGHT : OSI_LEFT;
    piece->length = 0;
    at += *at == '\t';
    while (digit(at[0]) >= 0 && digit(at[1]) >= 0 && piece->length < sizeof piece->octets) {
        piece->octets[piece->length++] = (uint8_t)(digit(at[0]) * 16 + digit(at[1]));
        at += 2;
    }
    return true;
}

int main(void)
{
    static struct piece piece;
    osi_judge judge = OSI_JUDGE;
    bool goes_on = osi_judge_new(&judge) == OSI_OK;
    while (goes_on && read_piece(&piece))
        goes_on = feed(&judge, &piece);
    if (goes_on)
        print_text(&judge);
    else
        fprintf(stderr, "judge: there is no memory\n");
    osi_judge_free(&judge);
    return goes_on ? 0 : 2;
}
