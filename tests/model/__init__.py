"""A second implementation of document 01 and document 02's Items 1, 2, 3, 6, 7, 8, 9 and 13, to compare the library
with. Item 9 changes no answer.

Language: Python. Primitives: SHA-2 and HMAC from hashlib and hmac, AES-256, ChaCha20 and Argon2 from the `cryptography`
package, all of them OpenSSL's; Salsa20 from its specification. It is written from the two documents, the settled
readings and the KDBX page alone, without a look at the library, so that a misreading on either side shows as a
difference.

In order: limits (numbers), primitives, salsa20, dictionary, header, keys, vault (openers and writer), recut, inner,
stream, answers (the driver's operations). Each rule stands under the sentence that it follows; "R:" marks a settled
reading.
"""
