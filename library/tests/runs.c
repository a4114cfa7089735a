/* runs ROOM: writes all route sheets of the plan sheet on standard input to standard output, by runs of nafthurm_all_sheets into ROOM lent bytes each. */
#include "lent.h"
#include "nafthurm.h"

#include <stdio.h>
#include <stdlib.h>

int main(int count, char **words) {
    static lent plan, work, out;
    uint8_t bytes[NAFTHURM_PLAN_BYTES + 1];
    HOLD(count == 2);
    size_t room = strtoull(words[1], NULL, 10);
    lend(&plan, bytes, fread(bytes, 1, sizeof bytes, stdin));
    nafthurm_shape shape = nafthurm_plan_shape(plan.bytes, plan.size);
    size_t boards = (size_t)shape.x * shape.y * shape.z;
    nafthurm_run run = {0, 0, 0};
    do {
        lend_filled(&work, 0xEE, 2 * boards * NAFTHURM_ALL_WORDS_A_BOARD);
        lend_filled(&out, 0xEE, room);
        run = nafthurm_all_sheets(plan.bytes, plan.size, run.next, (uint16_t *)work.bytes, work.size / 2, out.bytes, out.size);
        HOLD(run.number == 0);
        check_kept(&plan);
        check_around(&work);
        check_around(&out);
        for (size_t i = run.size; i < room; i++) HOLD(out.bytes[i] == 0xEE);
        HOLD(fwrite(out.bytes, 1, run.size, stdout) == run.size);
    } while (run.next < boards);
    return 0;
}
