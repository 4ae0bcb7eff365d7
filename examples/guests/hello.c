#include <stdio.h>
#include <stdlib.h>

int main(void)
{
    double *third = malloc(sizeof *third);
    FILE *notes = fopen("notes", "w");
    *third = 1.0 / 3;
    printf("Hello: %.4f\n", *third);
    return fprintf(notes, "A third is %.4f\n", *third) < 0 || fclose(notes) != 0;
}
