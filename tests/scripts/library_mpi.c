/* A rank of x10p-mpi.c that has no place, and sends rank 0 bytes that are no frame. */
#include <mpi.h>
#include <stdlib.h>

int main(int count, char **words)
{
    int word[2];
    MPI_Init(&count, &words);
    MPI_Bcast(word, 2, MPI_INT, 0, MPI_COMM_WORLD);
    char *image = malloc((size_t)word[1] + 1);
    if (!image)
        return 2;
    MPI_Bcast(image, word[1], MPI_BYTE, 0, MPI_COMM_WORLD);
    MPI_Send("no frame", 8, MPI_BYTE, 0, 0, MPI_COMM_WORLD);
    MPI_Recv(image, 1, MPI_BYTE, 0, MPI_ANY_TAG, MPI_COMM_WORLD, MPI_STATUS_IGNORE);
    free(image);
    MPI_Finalize();
    return 0;
}
