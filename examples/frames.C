// A frame of more than 8 KiB fits, but not 1,024 times over.

int main()
{
    char bytes[8200];
    return 7;
}
