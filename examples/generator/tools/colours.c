/* colours LIST HEADER SOURCE: writes a table of the words in LIST. */
#include <stdio.h>

int main(int count, char **words) {
    FILE *list, *header, *source;
    char word[64];
    int colours = 0;

    if (count != 4 || !(list = fopen(words[1], "r")) || !(header = fopen(words[2], "w"))
        || !(source = fopen(words[3], "w")))
        return 1;
    fprintf(source, "#include \"colours.h\"\n\nconst char *const colours[] = {\n");
    while (fscanf(list, "%63s", word) == 1) {
        fprintf(source, "    \"%s\",\n", word);
        colours++;
    }
    fprintf(source, "};\n");
    fprintf(header, "#define COLOURS %d\n\nextern const char *const colours[];\n", colours);
    return fclose(source) || fclose(header);
}
