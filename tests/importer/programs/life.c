/* Some generations of the game of life. */
#include <stdio.h>
#include <string.h>

#define SIZE 10
static char board[SIZE][SIZE + 1] = {"..#.......", "...#......", ".###......", "..........", "......###.",
                                     "..........", "....##....", "....##....", "..........", ".........."};

static int neighbours(int row, int column)
{
    int count = 0;
    for (int down = -1; down <= 1; down++)
        for (int right = -1; right <= 1; right++)
            if (down || right)
                count += board[(row + down + SIZE) % SIZE][(column + right + SIZE) % SIZE] == '#';
    return count;
}

int main(void)
{
    for (int generation = 0; generation < 4; generation++) {
        char next[SIZE][SIZE + 1];
        memcpy(next, board, sizeof board);
        for (int row = 0; row < SIZE; row++)
            for (int column = 0; column < SIZE; column++) {
                int count = neighbours(row, column);
                next[row][column] = count == 3 || (count == 2 && board[row][column] == '#') ? '#' : '.';
            }
        memcpy(board, next, sizeof board);
    }
    for (int row = 0; row < SIZE; row++)
        puts(board[row]);
    return 0;
}
