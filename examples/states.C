// Comments are taken out of a program by a state machine: a state, a byte, a `switch`.

enum State { Code, Slash, Line, Block, Star, Quoted, Escaped };

int main()
{
    State state = Code;
    int c;
    int comments = 0;
    while ((c = getchar()) != -1) {
        switch (state) {
        case Code:
            if (c == '/') {
                state = Slash;
                continue;
            }
            if (c == '"')
                state = Quoted;
            break;
        case Slash:
            if (c == '/' || c == '*') {
                comments++;
                if (c == '/')
                    state = Line;
                else
                    state = Block;
                continue;
            }
            putchar('/');
            if (c == '"')
                state = Quoted;
            else
                state = Code;
            break;
        case Line:
            if (c != '\n')
                continue;
            state = Code;
            break;
        case Block:
            if (c == '*')
                state = Star;
            continue;
        case Star:
            if (c == '/') {
                state = Code;
                c = ' ';
                break;
            }
            if (c != '*')
                state = Block;
            continue;
        case Quoted:
            if (c == '\\')
                state = Escaped;
            else if (c == '"')
                state = Code;
            break;
        default:
            state = Quoted;
        }
        putchar(c);
    }
    return comments;
}
