#include <royukezan.h>
#include <stdio.h>

int main(void)
{
    royukezan_watch w = royukezan_watch_fresh();
    const uint16_t neighbours[] = {118, 42};
    const size_t depth = 15; /* how many of a channel's levels count, 5 to 31 */
    if (royukezan_watch_start(&w, 310, depth) || royukezan_watch_new_beam(&w, 310, neighbours, 2).refusal)
        return 1; /* a refusal number */
    for (size_t i = 0; i < depth; i++)
        if (royukezan_watch_file_heard(&w, 310, -98.55f, 7.2f) || royukezan_watch_file_heard(&w, 42, -94.20f, 9.1f))
            return 1;
    royukezan_verdict_answer v = royukezan_watch_verdict(&w, 300);
    if (v.verdict == ROYUKEZAN_VERDICT_MOVE)
        printf("move to channel %u\n", v.channel);
}
