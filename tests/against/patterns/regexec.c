/* Prints where the C library's regcomp and regexec find basic regular expressions:
   each line of standard input is PATTERN, a tab and TEXT; what is printed is the match and group 1. */
#include <regex.h>
#include <stdio.h>
#include <string.h>

int main(void) {
    char line[4096];
    while (fgets(line, sizeof line, stdin)) {
        line[strcspn(line, "\n")] = 0;
        char *text = strchr(line, '\t');
        if (!text)
            continue;
        *text++ = 0;
        regex_t compiled;
        regmatch_t spans[3];
        if (regcomp(&compiled, line, 0)) {
            printf("%s\t%s\tno pattern\n", line, text);
            continue;
        }
        if (regexec(&compiled, text, 3, spans, 0))
            printf("%s\t%s\tnone\n", line, text);
        else
            printf("%s\t%s\t%d-%d\t%d-%d\t%d-%d\n", line, text, (int)spans[0].rm_so, (int)spans[0].rm_eo,
                   (int)spans[1].rm_so, (int)spans[1].rm_eo, (int)spans[2].rm_so, (int)spans[2].rm_eo);
        regfree(&compiled);
    }
    return 0;
}
