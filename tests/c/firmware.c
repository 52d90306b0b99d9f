/* Calls the library of bindings/firmware, Rust without std, on the worked plan.
 *
 *   firmware PLAN
 *
 * PLAN is examples/worked.plan. Says how many checks passed, or which failed. */
#include <stdint.h>
#include <stdio.h>

int64_t firmware_start_of(const uint8_t *plan, size_t length, uint32_t id);

int main(int count, char **words)
{
    static const struct {
        uint32_t id;
        int64_t start;
    } expected[] = {{7, 10}, {8, 15}, {9, -1}, {10, 15}, {11, -1}};
    static uint8_t plan[1024];
    FILE *file = count == 2 ? fopen(words[1], "rb") : NULL;
    if (file == NULL) {
        printf("firmware PLAN\n");
        return 1;
    }
    size_t length = fread(plan, 1, sizeof plan, file);
    fclose(file);
    for (int i = 0; i < 5; i++) {
        int64_t start = firmware_start_of(plan, length, expected[i].id);
        if (start != expected[i].start) {
            printf("activity %u: %lld\n", (unsigned)expected[i].id, (long long)start);
            return 1;
        }
    }
    if (firmware_start_of(plan, length - 1, 7) != -102) {
        printf("the plan without its last LF isn't refused with 2\n");
        return 1;
    }
    printf("6 checks passed\n");
    return 0;
}
