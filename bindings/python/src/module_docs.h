/* What help() says of the exceptions. */
#ifndef BITM_MODULE_DOCS_H
#define BITM_MODULE_DOCS_H

#define MORE(line) "\n...     " line
#define ELSE(line) "\n... " line
/* A line that raises an exception, whose text is printed. */
#define RAISES(name, line, text)                                                                                       \
    THEN("try:") MORE(line) ELSE("except " name " as error:") MORE("print(error)") PRINTS(text)

#define WRONG_TABLES                                                                                                   \
    "The tables do not match the words, or the parts form no sequence." EXAMPLE(                                       \
        "index = Index.over(bytes(8), b'\\xff' * 8, b'\\xff' * 8)")                                                    \
        RAISES("WrongTables", "index.rank(64)", "the tables do not match the words, or the parts form no sequence")
#define OTHER_KIND                                                                                                     \
    "A file, or a block, is right but holds another structure than the class that opens it." EXAMPLE(                  \
        "Tree([1, 0]).save('tree')")                                                                                   \
        RAISES("OtherKind", "Index.open('tree')", "'tree': it holds a tree, not an index")

#endif
