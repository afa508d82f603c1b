"""Tests of the program `ipld`: each runs it, and compares what it prints and the files it writes.

    IPLD=PROGRAM python3 -m unittest tests.ipld.test_show    one file of tests
    .ci/ipld-runs [PROGRAM..]                                all of them

Run them at the top of the repository. The expected output was not taken from the program:

- `formats.py` writes blocks, CIDs and CARs anew, by the specifications of DAG-CBOR, DAG-PB,
  DAG-JSON, CARv1, CARv2 and multiformats, with Python's hashlib and json.
- `unixfs.py` writes files and folders by the UnixFS specification, and `unixfs_reader.py` reads them.
  `test_unixfs_vectors.py` compares both with CIDs that go-ipfs gives.
- `crates/test_rows/cars.py` finds the first error of a CAR that was cut or changed. It reads CARs
  without the library.
- `jq` reads DAG-JSON.
- The messages and statuses are those of `ipld --help` and of the documentation of the libraries
  `ipld_block`, `ipld_show` and `car_files`.

`blocks.py` has the blocks that the tests share, `invalid.py` the files that are not valid, and
`files.py` all files, by name. `rows/` has the command lines with their output, in tables. The tests
with more steps than one command line are in the files `test_*.py`. `test_unixfs_vectors.py` and
`test_gateway.py` test what the other tests use, and don't run the program.
"""
