/* How many seconds the ranks of MPI work: first at plain sums and products, which they share out evenly, and then at IMAGE by
 * x10p-mpi.c, from the moment at which all places are open to that at which place 0 finds that the run has ended. It prints both.
 *
 *     work_mpi IMAGE
 */
#define main x10p_mpi
#include "../examples/embed/x10p-mpi.c"
#undef main

static volatile uint64_t number = 1;

static void multiply(long turns)
{
    for (long turn = 0; turn < turns; turn++)
        number = number * 6364136223846793005u + 1;
}

int main(int count, char **words)
{
    MPI_Init(&count, &words);
    MPI_Comm_size(MPI_COMM_WORLD, &ranks);
    MPI_Comm_rank(MPI_COMM_WORLD, &rank);
    if (count != 2 || open_all(words[1]))
        give_up(3, "give an image");
    MPI_Barrier(MPI_COMM_WORLD);
    double begin = MPI_Wtime();
    multiply(800000000 / ranks);
    MPI_Barrier(MPI_COMM_WORLD);
    double plain = MPI_Wtime() - begin;
    begin = MPI_Wtime();
    run();
    if (rank == 0)
        printf("%.3f %.3f\n", plain, MPI_Wtime() - begin);
    drop_late_frames();
    MPI_Finalize();
    return 0;
}
