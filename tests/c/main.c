#include "harness.h"

int main(void)
{
    part("sample", sample);
    part("figures", figures);
    part("losses", losses);
    part("lengths", lengths);
    part("lent words", lent_words);
    part("questions", questions);
    part("lookups", lookups);
    part("heads", heads);
    part("writing", writing);
    part("risk", risk);
    return all_held() ? 0 : 1;
}
