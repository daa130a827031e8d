/* Opens a vault with a password, block by block, and writes its document to standard output.
 *
 *     (cd crates/exports && rt lib)
 *     gcc -O2 -Wall -Iinclude -o target/open examples/open.c crates/exports/out/libexports.a
 *     target/open VAULT PASSWORD
 */
#include "vault.h"

int main(int words, char **word) {
    if (words != 3) return fputs("usage: open VAULT PASSWORD\n", stderr), 2;
    kdbx4_inner_figures inner;
    size_t length = open_vault(word[1], word[2], &inner);
    fprintf(stderr, "%llu attachments\n", (unsigned long long)inner.attachments);
    fwrite(payload + inner.document, 1, length - inner.document, stdout);
    leave(fflush(stdout) == 0 ? 0 : 2);
}
