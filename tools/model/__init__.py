"""A second account of what the program answers, written from the documents, as docs/FORMATS.md, and the
grammars of the libraries that they name: never from the program's code, nor from what it wrote.

It is plain and slow: a state is the writes that count, and a listing goes over all names. tools/compare-with-model draws inputs and compares the two."""
