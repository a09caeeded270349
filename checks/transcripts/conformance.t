`conformance SUITE PATH` runs a suite that others publish, in its own form, over a parser or a table of the toolchain. Each
sample of ten cases passes, those below `failing` fail, and those below `wrong` are no suites.

  $ cp -r "$top"/crates/conformance/data/. .
  $ conformance toml toml -- --test-threads 2 --quiet | timeless
  
  running 10 tests
  ..........
  test result: ok. 10 passed; 0 failed; 0 ignored; 0 measured; 0 filtered out; finished in 0.00s
  
  $ conformance url urltestdata.json -- --test-threads 2 --quiet | timeless
  
  running 10 tests
  ..........
  test result: ok. 10 passed; 0 failed; 0 ignored; 0 measured; 0 filtered out; finished in 0.00s
  
  $ conformance normalization NormalizationTest.txt -- --test-threads 2 --quiet | timeless
  
  running 10 tests
  ..........
  test result: ok. 10 passed; 0 failed; 0 ignored; 0 measured; 0 filtered out; finished in 0.00s
  
  $ conformance graphemes GraphemeBreakTest.txt -- --test-threads 2 --quiet | timeless
  
  running 10 tests
  ..........
  test result: ok. 10 passed; 0 failed; 0 ignored; 0 measured; 0 filtered out; finished in 0.00s
  
  $ conformance words WordBreakTest.txt -- --test-threads 2 --quiet | timeless
  
  running 10 tests
  ..........
  test result: ok. 10 passed; 0 failed; 0 ignored; 0 measured; 0 filtered out; finished in 0.00s
  

  $ run() { conformance "$@" -- --test-threads 1 --quiet | timeless; }
  $ run toml failing/toml
  
  running 7 tests
  FFFFFFF
  failures:
  
  ---- accepted ----
  expected a refusal, answered {"trees":{"type":"integer","value":"48"}}
  
  ---- integer ----
  /trees: expected {"type":"integer","value":"49"}, answered {"type":"integer","value":"48"}
  
  ---- length ----
  /trees: expected [{"type":"integer","value":"3"}], answered [{"type":"integer","value":"3"},{"type":"integer","value":"4"}]
  
  ---- missing ----
  /row/trees: expected {"type":"integer","value":"3"}, answered nothing
  
  ---- more ----
  /row/trees: expected nothing, answered {"type":"integer","value":"3"}
  
  ---- refused ----
  expected {"trees":{"type":"integer","value":"48"}}, answered a refusal: TOML parse error at line 1, column 9
  invalid value, expected a string, number, boolean, date-time, array or inline table
  
  
  ---- time ----
  /day: expected {"type":"datetime-local","value":"2000-02-29T00:00:00"}, answered {"type":"date-local","value":"2000-02-29"}
  
  
  failures:
      accepted
      integer
      length
      missing
      more
      refused
      time
  
  test result: FAILED. 0 passed; 7 failed; 0 ignored; 0 measured; 0 filtered out; finished in 0.00s
  
  [101]
  $ run url failing/urltestdata.json
  
  running 4 tests
  FFFF
  failures:
  
  ---- 1: "https://orchard.test/a" ----
  href: expected "https://orchard.test/b", answered "https://orchard.test/a"
  pathname: expected "/b", answered "/a"
  
  ---- 2: "http://orchard.test:65536/" ----
  expected "http://orchard.test/", answered a failure: invalid port number
  
  ---- 3: "https://orchard.test/" ----
  expected a failure, answered "https://orchard.test/"
  
  ---- 4: "https://u:p@orchard.test:8080/a?q#f" ----
  href: expected "no href", answered "https://u:p@orchard.test:8080/a?q#f"
  origin: expected "no origin", answered "https://orchard.test:8080"
  protocol: expected "no protocol", answered "https:"
  username: expected "no username", answered "u"
  password: expected "no password", answered "p"
  host: expected "no host", answered "orchard.test:8080"
  hostname: expected "no hostname", answered "orchard.test"
  port: expected "no port", answered "8080"
  pathname: expected "no pathname", answered "/a"
  search: expected "no search", answered "?q"
  hash: expected "no hash", answered "#f"
  
  
  failures:
      1: "https://orchard.test/a"
      2: "http://orchard.test:65536/"
      3: "https://orchard.test/"
      4: "https://u:p@orchard.test:8080/a?q#f"
  
  test result: FAILED. 0 passed; 4 failed; 0 ignored; 0 measured; 0 filtered out; finished in 0.00s
  
  [101]
  $ run normalization failing/NormalizationTest.txt
  
  running 2 tests
  FF
  failures:
  
  ---- line 2: NFC is composed ----
  NFC of c1: expected 0065 0301, answered 00E9
  
  ---- line 3: NFKC has no ligature ----
  NFKC of c1: expected FB01, answered 0066 0069
  
  
  failures:
      line 2: NFC is composed
      line 3: NFKC has no ligature
  
  test result: FAILED. 0 passed; 2 failed; 0 ignored; 0 measured; 0 filtered out; finished in 0.00s
  
  [101]
  $ run graphemes failing/GraphemeBreakTest.txt
  
  running 1 test
  F
  failures:
  
  ---- line 1: a mark is not cut off ----
  expected ÷ 0020 ÷ 0308 ÷, answered ÷ 0020 × 0308 ÷
  
  
  failures:
      line 1: a mark is not cut off
  
  test result: FAILED. 0 passed; 1 failed; 0 ignored; 0 measured; 0 filtered out; finished in 0.00s
  
  [101]
  $ run words failing/WordBreakTest.txt
  
  running 1 test
  F
  failures:
  
  ---- line 1: a word is not cut ----
  expected ÷ 0061 ÷ 0062 ÷, answered ÷ 0061 × 0062 ÷
  
  
  failures:
      line 1: a word is not cut
  
  test result: FAILED. 0 passed; 1 failed; 0 ignored; 0 measured; 0 filtered out; finished in 0.00s
  
  [101]

A value of another type is another one, and so is a number in place of NaN. The case `same` passes.

  $ value() { mkdir -p values/valid; echo "v = $2" >values/valid/$1.toml; echo "{\"v\": {$3}}" >values/valid/$1.json; }
  $ value text '"3"' '"type": "integer", "value": "3"'
  $ value number 3 '"type": "string", "value": "3"'
  $ value nan nan '"type": "float", "value": "1.0"'
  $ value no-nan 1.0 '"type": "float", "value": "nan"'
  $ value same '-nan' '"type": "float", "value": "nan"'
  $ run toml values
  
  running 5 tests
  FFF.F
  failures:
  
  ---- nan ----
  /v: expected {"type":"float","value":"1.0"}, answered {"type":"float","value":"NaN"}
  
  ---- no-nan ----
  /v: expected {"type":"float","value":"nan"}, answered {"type":"float","value":"1"}
  
  ---- number ----
  /v: expected {"type":"string","value":"3"}, answered {"type":"integer","value":"3"}
  
  ---- text ----
  /v: expected {"type":"integer","value":"3"}, answered {"type":"string","value":"3"}
  
  
  failures:
      nan
      no-nan
      number
      text
  
  test result: FAILED. 1 passed; 4 failed; 0 ignored; 0 measured; 0 filtered out; finished in 0.00s
  
  [101]

NFD and NFKD are looked at, too. What a line says of its other columns follows from the first, unless the tables are wrong.

  $ printf '%s\n' '00E9;00E9;00E9;00E9;0065 0301; # NFD is cut' 'FB01;FB01;FB01;0066 0069;FB01; # NFKD has no ligature' >forms
  $ run normalization forms
  
  running 2 tests
  FF
  failures:
  
  ---- line 1: NFD is cut ----
  NFD of c1: expected 00E9, answered 0065 0301
  
  ---- line 2: NFKD has no ligature ----
  NFKD of c1: expected FB01, answered 0066 0069
  
  
  failures:
      line 1: NFD is cut
      line 2: NFKD has no ligature
  
  test result: FAILED. 0 passed; 2 failed; 0 ignored; 0 measured; 0 filtered out; finished in 0.00s
  
  [101]

  $ conformance normalization wrong/NormalizationTest.txt
  2> conformance: wrong/NormalizationTest.txt: line 3: it doesn't have five columns that each end with a semicolon
  [1]
  $ conformance normalization wrong/six-columns.txt
  2> conformance: wrong/six-columns.txt: line 1: it doesn't have five columns that each end with a semicolon
  [1]
  $ conformance normalization wrong/surrogate.txt
  2> conformance: wrong/surrogate.txt: line 1: "D800" is not the code point of a character
  [1]
  $ conformance normalization wrong/comments.txt
  2> conformance: wrong/comments.txt: no cases
  [1]
  $ conformance graphemes wrong/GraphemeBreakTest.txt
  2> conformance: wrong/GraphemeBreakTest.txt: line 2: it doesn't begin and end with ÷
  [1]
  $ conformance words wrong/WordBreakTest.txt
  2> conformance: wrong/WordBreakTest.txt: line 1: "00ZZ" is not the code point of a character
  [1]
  $ conformance words wrong/nowhere
  2> conformance: cannot read wrong/nowhere: No such file or directory (os error 2)
  [1]
  $ conformance url wrong/no-list.json
  2> conformance: wrong/no-list.json: it isn't a list
  [1]
  $ conformance url wrong/no-input.json
  2> conformance: wrong/no-input.json: case 1: it has no input that is a text
  [1]
  $ conformance url wrong/no-outcome.json
  2> conformance: wrong/no-outcome.json: case 1: it needs either a text as its href or true as its failure
  [1]
  $ conformance url wrong/cut.json
  2> conformance: wrong/cut.json: EOF while parsing at line 4 column 0
  [1]
  $ conformance toml wrong/no-json
  2> conformance: cannot read valid/orchard.json: No such file or directory (os error 2)
  [1]
  $ conformance toml wrong/elsewhere
  2> conformance: orchard.toml is neither below valid nor below invalid
  [1]
  $ conformance toml wrong/nowhere
  2> conformance: cannot read the folder wrong/nowhere: No such file or directory (os error 2)
  [1]
  $ conformance toml wrong/cut-json
  2> conformance: valid/orchard.json: EOF while parsing at line 3 column 0
  [1]

  $ conformance
  2> error: too few arguments: 0 of at least 2
  2> 
  2> usage: conformance SUITE PATH [-- OPTIONS]
  2> 
  2> Runs a trial for each case of a suite:
  2> 
  2>   toml           the folder tests of toml-test, with valid and invalid below it
  2>   url            the file urltestdata.json of the web-platform-tests
  2>   normalization  Unicode's file NormalizationTest.txt
  2>   graphemes      Unicode's file GraphemeBreakTest.txt
  2>   words          Unicode's file WordBreakTest.txt
  2> 
  2> `conformance -- --help` shows the options.
  [2]
  $ conformance words
  2> error: too few arguments: 1 of at least 2
  2> 
  2> usage: conformance SUITE PATH [-- OPTIONS]
  2> 
  2> Runs a trial for each case of a suite:
  2> 
  2>   toml           the folder tests of toml-test, with valid and invalid below it
  2>   url            the file urltestdata.json of the web-platform-tests
  2>   normalization  Unicode's file NormalizationTest.txt
  2>   graphemes      Unicode's file GraphemeBreakTest.txt
  2>   words          Unicode's file WordBreakTest.txt
  2> 
  2> `conformance -- --help` shows the options.
  [2]
  $ conformance weeks x
  2> error: no such suite: weeks
  2> 
  2> usage: conformance SUITE PATH [-- OPTIONS]
  2> 
  2> Runs a trial for each case of a suite:
  2> 
  2>   toml           the folder tests of toml-test, with valid and invalid below it
  2>   url            the file urltestdata.json of the web-platform-tests
  2>   normalization  Unicode's file NormalizationTest.txt
  2>   graphemes      Unicode's file GraphemeBreakTest.txt
  2>   words          Unicode's file WordBreakTest.txt
  2> 
  2> `conformance -- --help` shows the options.
  [2]
