/* How many microseconds a hop between two ranks of MPI takes: first one of messages that go to and fro, and then one of an
 * activity of IMAGE, which goes to place 1 and back by AT with a number, by x10p-mpi.c in the same two processes. It prints both.
 *
 *     ping_pong_mpi IMAGE
 */
#define main x10p_mpi
#include "../examples/embed/x10p-mpi.c"
#undef main

/* the bytes of the frames of an AT with a number, and of its way back with one */
#define THERE 40
#define BACK 32

static char message[THERE];

static void play(long hops)
{
    for (long hop = 0; hop < hops; hop += 2) {
        if (rank == 0)
            MPI_Send(message, THERE, MPI_BYTE, 1, 0, MPI_COMM_WORLD);
        MPI_Recv(message, THERE, MPI_BYTE, !rank, 0, MPI_COMM_WORLD, MPI_STATUS_IGNORE);
        if (rank == 1)
            MPI_Send(message, BACK, MPI_BYTE, 0, 0, MPI_COMM_WORLD);
    }
}

int main(int count, char **words)
{
    const long hops = 1000000;
    MPI_Init(&count, &words);
    MPI_Comm_size(MPI_COMM_WORLD, &ranks);
    MPI_Comm_rank(MPI_COMM_WORLD, &rank);
    if (count != 2 || ranks != 2 || open_all(words[1]))
        give_up(3, "give an image, and two ranks");
    double begin = MPI_Wtime();
    play(hops);
    double plain = MPI_Wtime() - begin;
    MPI_Barrier(MPI_COMM_WORLD);
    begin = MPI_Wtime();
    run();
    double of_places = MPI_Wtime() - begin;
    if (rank == 0)
        printf("%.3f %.3f\n", plain / hops * 1e6, of_places / (2 * sent[1]) * 1e6);
    drop_late_frames();
    MPI_Finalize();
    return 0;
}
