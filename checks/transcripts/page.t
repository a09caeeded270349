`reports page` prints a report as a page of HTML. The page of an empty report has what is the same in all.

  $ report >empty.json; reports page empty.json >empty.html
  $ sed '/^<style>/,/^<.style>/d; /^<form/,/^<.form>/d; /^<script>/,/^<.script>/d' empty.html
  <!doctype html>
  <html lang="en">
  <head>
  <meta charset="utf-8">
  <meta name="viewport" content="width=device-width, initial-scale=1">
  <meta http-equiv="Content-Security-Policy" content="default-src 'none'; style-src 'unsafe-inline'; script-src 'sha256-cqfjaZmr/xN2aLSjBCwyh0FCwM7+XbJsLphZfpcEjPQ='">
  <title>empty: ok. 0 failed; 0 passed; 0 ignored; 0 measured</title>
  </head>
  <body>
  <header>
  <h1><bdi>empty</bdi> <strong class="passed">ok</strong></h1>
  <p>0 filtered out; finished in 0 ms</p>
  <div class="bar" aria-hidden="true"><i class="failed" style="flex-grow: 0"></i><i class="passed" style="flex-grow: 0"></i><i class="ignored" style="flex-grow: 0"></i><i class="measured" style="flex-grow: 0"></i><i class="cut" style="flex-grow: 0"></i></div>
  <ul class="counts">
  <li class="failed">0 failed</li>
  <li class="passed">0 passed</li>
  <li class="ignored">0 ignored</li>
  <li class="measured">0 measured</li>
  </ul>
  </header>
  <nav>
  <a href="#failed" data-rows="0">Failed: 0</a>
  <a href="#measured" data-rows="0">Measured: 0</a>
  <a href="#others" data-rows="0">Passed or ignored: 0</a>
  </nav>
  <main>
  <section id="failed">
  <h2>Failed</h2>
  <ol>
  </ol>
  </section>
  <section id="measured">
  <h2>Measured</h2>
  <ol>
  </ol>
  </section>
  <section id="others">
  <h2>Passed or ignored</h2>
  <ol>
  </ol>
  </section>
  </main>
  </body>
  </html>

That is the page without its style, the form of its filter and its script. Somebody has looked at these in a browser: if their
digest changes, run trials/showing/page, which looks at pages in Chromium and prints the new one. By its own digest the page
allows its script.

  $ script() { sed -n '/^<script>/,/^<.script>/{s/^<script>//; /^<.script>/!p}' empty.html; }
  $ { sed -n '/^<style>/,/^<.style>/{//!p}; /^<form/,/^<.form>/p' empty.html; script; } | sha256sum
  01f7dfaf760d46bf8a95dab8fe52247c9234e7b0e276480454f742efd130fd38  -
  $ printf "$(script | sha256sum | cut -c -64 | sed 's/../\\x&/g')" | base64
  cqfjaZmr/xN2aLSjBCwyh0FCwM7+XbJsLphZfpcEjPQ=

Of another page, this shows where it differs from that one, or from the one before it that `base` names, and its lines there.

  $ page() { reports page "$@" >page.html; local status=$?; diff $base page.html | sed '/^[<-]/d; s/^> //'; return $status; }
  $ base=empty.html

A report with each outcome and with texts that would be markup. The widths of averages are logarithms: 1,200 halved six times is
18, and 6 times 16 more is 114.

  $ page 'a&b.json'
  7c7
  <title>a&amp;b: FAILED. 3 failed; 2 passed; 1 ignored; 1 measured</title>
  156,158c156,158
  <h1><bdi>a&amp;b</bdi> <strong class="failed">FAILED</strong></h1>
  <p>13 filtered out; finished in 0 ms</p>
  <div class="bar" aria-hidden="true"><i class="failed" style="flex-grow: 3"></i><i class="passed" style="flex-grow: 2"></i><i class="ignored" style="flex-grow: 1"></i><i class="measured" style="flex-grow: 1"></i><i class="cut" style="flex-grow: 0"></i></div>
  160,163c160,163
  <li class="failed">3 failed</li>
  <li class="passed">2 passed</li>
  <li class="ignored">1 ignored</li>
  <li class="measured">1 measured</li>
  167,169c167,169
  <a href="#failed" data-rows="3">Failed: 3</a>
  <a href="#measured" data-rows="1">Measured: 1</a>
  <a href="#others" data-rows="3">Passed or ignored: 3</a>
  185a186,192
  <li id="/none" class="failed"><details open><summary><a href="#/none">FAILED</a> <bdi>none</bdi></summary><p>no message</p></details></li>
  <li id="/empty" class="failed"><details open><summary><a href="#/empty">FAILED</a> <bdi>empty</bdi></summary><pre>
  </pre></details></li>
  <li id="k/a~5cu~7b1~7d" class="failed"><details open><summary><a href="#k/a~5cu~7b1~7d">FAILED</a> <bdi class="kind">k</bdi> <bdi>a\u{5c}u{1}</bdi></summary><pre>
  
  first &lt;/pre&gt;\t\\u{d} (esc)
  \xe2\x80\xae\\u{5c}u{</pre></details></li> (esc)
  190a198
  <li id="/b" class="measured"><a href="#/b">bench</a> <bdi>b</bdi> <span>1,200 ns/iter (+/- 34)</span> <meter aria-hidden="true" max="114" value="114"></meter></li>
  195a204,207
  <li id="/plain" class="passed"><a href="#/plain">ok</a> <bdi>plain</bdi></li>
  <li id="a~3cb/~26~22~27~3e" class="passed"><a href="#a~3cb/~26~22~27~3e">ok</a> <bdi class="kind">a&lt;b</bdi> <bdi>&amp;&quot;'&gt;</bdi></li>
  <li id="/~01~7f~c2~85~09~0a~ef~bf~be~ef~bf~bf" class="ignored"><a href="#/~01~7f~c2~85~09~0a~ef~bf~be~ef~bf~bf">ignored</a> <bdi>\\u{1}\\u{7f}\\u{85}\t (esc)
  \u{fffe}\u{ffff}</bdi></li>
  $ mv page.html first.html; base=first.html
  $ page - <'a&b.json'
  7c7
  <title>report: FAILED. 3 failed; 2 passed; 1 ignored; 1 measured</title>
  156c156
  <h1><bdi>report</bdi> <strong class="failed">FAILED</strong></h1>
  $ page --title '<t>' --note 'host &' --note $'\x01' 'a&b.json'
  7c7
  <title>&lt;t&gt;: FAILED. 3 failed; 2 passed; 1 ignored; 1 measured</title>
  156c156,158
  <h1><bdi>&lt;t&gt;</bdi> <strong class="failed">FAILED</strong></h1>
  <p><bdi>host &amp;</bdi></p>
  <p><bdi>\u{1}</bdi></p>
  $ page --title '' --note '' 'a&b.json'
  7c7
  <title>: FAILED. 3 failed; 2 passed; 1 ignored; 1 measured</title>
  156c156,157
  <h1><bdi></bdi> <strong class="failed">FAILED</strong></h1>
  <p><bdi></bdi></p>
  $ base=empty.html; page --title 'a<b' - <markup
  7c7
  <title>a&lt;b: FAILED. 1 failed; 1 passed; 0 ignored; 0 measured</title>
  156c156
  <h1><bdi>a&lt;b</bdi> <strong class="failed">FAILED</strong></h1>
  158c158
  <div class="bar" aria-hidden="true"><i class="failed" style="flex-grow: 1"></i><i class="passed" style="flex-grow: 1"></i><i class="ignored" style="flex-grow: 0"></i><i class="measured" style="flex-grow: 0"></i><i class="cut" style="flex-grow: 0"></i></div>
  160,161c160,161
  <li class="failed">1 failed</li>
  <li class="passed">1 passed</li>
  167c167
  <a href="#failed" data-rows="1">Failed: 1</a>
  169c169
  <a href="#others" data-rows="1">Passed or ignored: 1</a>
  185a186,188
  <li id="~22~27~3cb~3e~26amp~3b/~3c~2fmain~3e~00~1b~7f~c2~85" class="failed"><details open><summary><a href="#~22~27~3cb~3e~26amp~3b/~3c~2fmain~3e~00~1b~7f~c2~85">FAILED</a> <bdi class="kind">&quot;'&lt;b&gt;&amp;amp;</bdi> <bdi>&lt;/main&gt;\u{0}\u{1b}\u{7f}\u{85}</bdi></summary><pre>
  &lt;/pre&gt;\u{d}
  \t&lt;script&gt;\\u{5c}u{1b}\xe2\x80\xae</pre></details></li> (esc)
  195a199
  <li id="/~5cu~7b" class="passed"><a href="#/~5cu~7b">ok</a> <bdi>\u{5c}u{</bdi></li>

How many rows are listed.

  $ base=first.html; page --failed 'a&b.json'
  198d197
  199a199
  <p class="unlisted">not listed: 1</p>
  204,207d203
  208a205
  <p class="unlisted">not listed: 3</p>
  $ page --rows 0 'a&b.json' >/dev/null && cmp page.html <(reports page --failed 'a&b.json')
  $ page --rows 2 'a&b.json'
  205,207d204
  208a206
  <p class="unlisted">not listed: 2</p>
  $ page --rows 18446744073709551615 'a&b.json' >/dev/null && cmp page.html <(reports page 'a&b.json')
  $ report --took 1.5 --out 13 'ok p' 'bench m: 1200 34' 'failed [k] f: no\nno' 'ignored i' 'bench [k] m: 7 0' 'failed f' >benches
  $ base=empty.html; page --title 'a<b' - <benches
  7c7
  <title>a&lt;b: FAILED. 2 failed; 1 passed; 1 ignored; 2 measured</title>
  156,158c156,158
  <h1><bdi>a&lt;b</bdi> <strong class="failed">FAILED</strong></h1>
  <p>13 filtered out; finished in 1.5 s</p>
  <div class="bar" aria-hidden="true"><i class="failed" style="flex-grow: 2"></i><i class="passed" style="flex-grow: 1"></i><i class="ignored" style="flex-grow: 1"></i><i class="measured" style="flex-grow: 2"></i><i class="cut" style="flex-grow: 0"></i></div>
  160,163c160,163
  <li class="failed">2 failed</li>
  <li class="passed">1 passed</li>
  <li class="ignored">1 ignored</li>
  <li class="measured">2 measured</li>
  167,169c167,169
  <a href="#failed" data-rows="2">Failed: 2</a>
  <a href="#measured" data-rows="2">Measured: 2</a>
  <a href="#others" data-rows="2">Passed or ignored: 2</a>
  185a186,189
  <li id="k/f" class="failed"><details open><summary><a href="#k/f">FAILED</a> <bdi class="kind">k</bdi> <bdi>f</bdi></summary><pre>
  no
  no</pre></details></li>
  <li id="/f" class="failed"><details open><summary><a href="#/f">FAILED</a> <bdi>f</bdi></summary><p>no message</p></details></li>
  190a195,196
  <li id="/m" class="measured"><a href="#/m">bench</a> <bdi>m</bdi> <span>1,200 ns/iter (+/- 34)</span> <meter aria-hidden="true" max="114" value="114"></meter></li>
  <li id="k/m" class="measured"><a href="#k/m">bench</a> <bdi class="kind">k</bdi> <bdi>m</bdi> <span>7 ns/iter (+/- 0)</span> <meter aria-hidden="true" max="114" value="7"></meter></li>
  195a202,203
  <li id="/p" class="passed"><a href="#/p">ok</a> <bdi>p</bdi></li>
  <li id="/i" class="ignored"><a href="#/i">ignored</a> <bdi>i</bdi></li>
  $ mv page.html benches.html; base=benches.html
  $ page --title 'a<b' --rows 0 - <benches
  195,196d194
  197a196
  <p class="unlisted">not listed: 2</p>
  202,203d200
  204a202
  <p class="unlisted">not listed: 2</p>
  $ page --title 'a<b' --rows 1 - <benches
  196d195
  197a197
  <p class="unlisted">not listed: 1</p>
  202,203d201
  204a203
  <p class="unlisted">not listed: 2</p>
  $ page --title 'a<b' --rows 2 - <benches
  202,203d201
  204a203
  <p class="unlisted">not listed: 2</p>
  $ page --title 'a<b' --rows 3 - <benches
  203d202
  204a204
  <p class="unlisted">not listed: 1</p>
  $ reports page --title 'a<b' --rows 4 - <benches | cmp - <(reports page --title 'a<b' - <benches)

A list of more than 500 rows is in several parts.

  $ for place in {0..500}; do many+=("ok $place"); done; report "${many[@]}" >many
  $ base=empty.html; page many | grep -v '^<li'
  7c7
  <title>many: ok. 0 failed; 501 passed; 0 ignored; 0 measured</title>
  156c156
  <h1><bdi>many</bdi> <strong class="passed">ok</strong></h1>
  158c158
  <div class="bar" aria-hidden="true"><i class="failed" style="flex-grow: 0"></i><i class="passed" style="flex-grow: 501"></i><i class="ignored" style="flex-grow: 0"></i><i class="measured" style="flex-grow: 0"></i><i class="cut" style="flex-grow: 0"></i></div>
  161c161
  169c169
  <a href="#others" data-rows="501">Passed or ignored: 501</a>
  195a196,698
  </ol>
  <ol>
  $ grep -n -e '^</*ol>' -e '"/499"' -e '"/500"' page.html
  185:<ol>
  186:</ol>
  190:<ol>
  191:</ol>
  195:<ol>
  695:<li id="/499" class="passed"><a href="#/499">ok</a> <bdi>499</bdi></li>
  696:</ol>
  697:<ol>
  698:<li id="/500" class="passed"><a href="#/500">ok</a> <bdi>500</bdi></li>
  699:</ol>
  $ grep '^<li' page.html | diff - <(for place in {0..500}; do
  >     echo "<li id=\"/$place\" class=\"passed\"><a href=\"#/$place\">ok</a> <bdi>$place</bdi></li>"
  > done)
  1,4d0
  < <li class="failed">0 failed</li>
  < <li class="passed">501 passed</li>
  < <li class="ignored">0 ignored</li>
  < <li class="measured">0 measured</li>
  [1]

Times of trials, and of a run.

  $ base=first.html; page - <timed
  7c7
  <title>report: FAILED. 3 failed; 2 passed; 1 ignored; 1 measured</title>
  156c156
  <h1><bdi>report</bdi> <strong class="failed">FAILED</strong></h1>
  157a158
  <p>total 1 h 3 min, slowest 1 h 2 min</p>
  186,187c187,188
  <li id="/none" class="failed"><details open><summary><a href="#/none">FAILED</a> <bdi>none</bdi> <span class="time" data-nanos="61000000000">61.0 s</span></summary><p>no message</p></details></li>
  <li id="/empty" class="failed"><details open><summary><a href="#/empty">FAILED</a> <bdi>empty</bdi> <span class="time" data-nanos="3725000000000">1 h 2 min</span></summary><pre>
  189c190
  <li id="k/a~5cu~7b1~7d" class="failed"><details open><summary><a href="#k/a~5cu~7b1~7d">FAILED</a> <bdi class="kind">k</bdi> <bdi>a\u{5c}u{1}</bdi> <span class="time" data-nanos="5499999">5 ms</span></summary><pre>
  198c199
  <li id="/b" class="measured"><a href="#/b">bench</a> <bdi>b</bdi> <span class="time" data-nanos="350000000">350 ms</span> <span>1,200 ns/iter (+/- 34)</span> <meter aria-hidden="true" max="114" value="114"></meter></li>
  204c205
  <li id="/plain" class="passed"><a href="#/plain">ok</a> <bdi>plain</bdi> <span class="time" data-nanos="1000000000">1.0 s</span></li>
  207c208
  \u{fffe}\u{ffff}</bdi> <span class="time" data-nanos="2000000000">2.0 s</span></li>
  $ report --took 62.5 --out 13 'ok plain <0.35>' 'failed [k] b: no\nno <1.4999995>' 'ignored c' 'ok d' 'ok [k] e <0.35>' \
  >     'bench m: 1234 5 <61>' 'ok z <0>' 'failed short <0.000499999>' >times
  $ base=empty.html; page --title a times
  7c7
  <title>a: FAILED. 2 failed; 4 passed; 1 ignored; 1 measured</title>
  156,158c156,159
  <h1><bdi>a</bdi> <strong class="failed">FAILED</strong></h1>
  <p>13 filtered out; finished in 62.5 s</p>
  <p>total 63.2 s, slowest 61.0 s</p>
  <div class="bar" aria-hidden="true"><i class="failed" style="flex-grow: 2"></i><i class="passed" style="flex-grow: 4"></i><i class="ignored" style="flex-grow: 1"></i><i class="measured" style="flex-grow: 1"></i><i class="cut" style="flex-grow: 0"></i></div>
  160,163c161,164
  <li class="failed">2 failed</li>
  <li class="passed">4 passed</li>
  <li class="ignored">1 ignored</li>
  <li class="measured">1 measured</li>
  167,169c168,170
  <a href="#failed" data-rows="2">Failed: 2</a>
  <a href="#measured" data-rows="1">Measured: 1</a>
  <a href="#others" data-rows="5">Passed or ignored: 5</a>
  185a187,190
  <li id="k/b" class="failed"><details open><summary><a href="#k/b">FAILED</a> <bdi class="kind">k</bdi> <bdi>b</bdi> <span class="time" data-nanos="1499999500">1.5 s</span></summary><pre>
  no
  no</pre></details></li>
  <li id="/short" class="failed"><details open><summary><a href="#/short">FAILED</a> <bdi>short</bdi> <span class="time" data-nanos="499999">0 ms</span></summary><p>no message</p></details></li>
  190a196
  <li id="/m" class="measured"><a href="#/m">bench</a> <bdi>m</bdi> <span class="time" data-nanos="61000000000">61.0 s</span> <span>1,234 ns/iter (+/- 5)</span> <meter aria-hidden="true" max="115" value="115"></meter></li>
  195a202,206
  <li id="/plain" class="passed"><a href="#/plain">ok</a> <bdi>plain</bdi> <span class="time" data-nanos="350000000">350 ms</span></li>
  <li id="/c" class="ignored"><a href="#/c">ignored</a> <bdi>c</bdi></li>
  <li id="/d" class="passed"><a href="#/d">ok</a> <bdi>d</bdi></li>
  <li id="k/e" class="passed"><a href="#k/e">ok</a> <bdi class="kind">k</bdi> <bdi>e</bdi> <span class="time" data-nanos="350000000">350 ms</span></li>
  <li id="/z" class="passed"><a href="#/z">ok</a> <bdi>z</bdi> <span class="time" data-nanos="0">0 ms</span></li>
  $ mv page.html times.html; base=times.html
  $ report --took 62.5 --out 13 'ok plain' 'failed [k] b: no\nno' 'ignored c' 'ok d' 'ok [k] e' 'bench m: 1234 5' 'ok z' \
  >     'failed short' >plain
  $ page --title a plain
  158d157
  187c186
  <li id="k/b" class="failed"><details open><summary><a href="#k/b">FAILED</a> <bdi class="kind">k</bdi> <bdi>b</bdi></summary><pre>
  190c189
  <li id="/short" class="failed"><details open><summary><a href="#/short">FAILED</a> <bdi>short</bdi></summary><p>no message</p></details></li>
  196c195
  <li id="/m" class="measured"><a href="#/m">bench</a> <bdi>m</bdi> <span>1,234 ns/iter (+/- 5)</span> <meter aria-hidden="true" max="115" value="115"></meter></li>
  202c201
  <li id="/plain" class="passed"><a href="#/plain">ok</a> <bdi>plain</bdi></li>
  205,206c204,205
  <li id="k/e" class="passed"><a href="#k/e">ok</a> <bdi class="kind">k</bdi> <bdi>e</bdi></li>
  <li id="/z" class="passed"><a href="#/z">ok</a> <bdi>z</bdi></li>
  $ base=empty.html; times=(0 0.000499999 0.0005 0.999499999 0.9995 1.05 119.949999999 119.95 125.4 3599.499999999 3599.5 \
  >     18446744073.709551615)
  $ for took in "${times[@]}"; do
  >     report --took $took >took; page --title 'a<b' - <took | tail -n +5 || echo "status $?"
  > done
  <p>0 filtered out; finished in 1 ms</p>
  <p>0 filtered out; finished in 999 ms</p>
  <p>0 filtered out; finished in 1.0 s</p>
  <p>0 filtered out; finished in 1.1 s</p>
  <p>0 filtered out; finished in 119.9 s</p>
  <p>0 filtered out; finished in 2 min 0 s</p>
  <p>0 filtered out; finished in 2 min 5 s</p>
  <p>0 filtered out; finished in 59 min 59 s</p>
  <p>0 filtered out; finished in 1 h 0 min</p>
  <p>0 filtered out; finished in 5124095 h 35 min</p>
  $ page --title 'a<b' - <took
  7c7
  <title>a&lt;b: ok. 0 failed; 0 passed; 0 ignored; 0 measured</title>
  156,157c156,157
  <h1><bdi>a&lt;b</bdi> <strong class="passed">ok</strong></h1>
  <p>0 filtered out; finished in 5124095 h 35 min</p>

Reports that are cut, wrong or absent. Nothing counts behind a wrong line. A page with a failure is red in any case.

  $ head -n 4 'a&b.json' >cut; page cut
  7c7
  <title>cut: cut. 0 failed; 1 passed; 0 ignored; 0 measured</title>
  156,158c156,158
  <h1><bdi>cut</bdi> <strong class="cut">cut</strong></h1>
  <p class="cut">the report ends after 1 of 7 trials; missing: 6; running: <bdi>b</bdi></p>
  <div class="bar" aria-hidden="true"><i class="failed" style="flex-grow: 0"></i><i class="passed" style="flex-grow: 1"></i><i class="ignored" style="flex-grow: 0"></i><i class="measured" style="flex-grow: 0"></i><i class="cut" style="flex-grow: 6"></i></div>
  161c161
  <li class="passed">1 passed</li>
  169c169
  <a href="#others" data-rows="1">Passed or ignored: 1</a>
  195a196
  <li id="/plain" class="passed"><a href="#/plain">ok</a> <bdi>plain</bdi></li>
  2> reports: cut: the report is cut
  [1]
  $ { cat cut; echo what; } >wrong; page wrong
  7c7
  <title>wrong: cut. 0 failed; 1 passed; 0 ignored; 0 measured</title>
  156,158c156,158
  <h1><bdi>wrong</bdi> <strong class="cut">cut</strong></h1>
  <p class="cut">line 5 is no line of a report; the report ends after 1 of 7 trials; missing: 6; running: <bdi>b</bdi></p>
  <div class="bar" aria-hidden="true"><i class="failed" style="flex-grow: 0"></i><i class="passed" style="flex-grow: 1"></i><i class="ignored" style="flex-grow: 0"></i><i class="measured" style="flex-grow: 0"></i><i class="cut" style="flex-grow: 6"></i></div>
  161c161
  <li class="passed">1 passed</li>
  169c169
  <a href="#others" data-rows="1">Passed or ignored: 1</a>
  195a196
  <li id="/plain" class="passed"><a href="#/plain">ok</a> <bdi>plain</bdi></li>
  2> reports: wrong: line 5: not what a report has there
  [1]
  $ sums | sed '7,$d' >killed; page killed
  7c7
  <title>killed: cut. 1 failed; 1 passed; 0 ignored; 0 measured</title>
  156,158c156,158
  <h1><bdi>killed</bdi> <strong class="failed">cut</strong></h1>
  <p class="cut">the report ends after 2 of 3 trials; missing: 1; running: <bdi>7 + 0</bdi></p>
  <div class="bar" aria-hidden="true"><i class="failed" style="flex-grow: 1"></i><i class="passed" style="flex-grow: 1"></i><i class="ignored" style="flex-grow: 0"></i><i class="measured" style="flex-grow: 0"></i><i class="cut" style="flex-grow: 1"></i></div>
  160,161c160,161
  <li class="failed">1 failed</li>
  <li class="passed">1 passed</li>
  167c167
  <a href="#failed" data-rows="1">Failed: 1</a>
  169c169
  <a href="#others" data-rows="1">Passed or ignored: 1</a>
  185a186,189
  <li id="/2~20~2b~202" class="failed"><details open><summary><a href="#/2~20~2b~202">FAILED</a> <bdi>2 + 2</bdi></summary><pre>
  assertion `left == right` failed
    left: 4
   right: 5</pre></details></li>
  195a200
  <li id="/1~20~2b~201" class="passed"><a href="#/1~20~2b~201">ok</a> <bdi>1 + 1</bdi></li>
  2> reports: killed: the report is cut
  [1]
  $ begun 3 'ok a' 'running [k] <b>' | page --title 'a<b' -
  7c7
  <title>a&lt;b: cut. 0 failed; 1 passed; 0 ignored; 0 measured</title>
  156,158c156,158
  <h1><bdi>a&lt;b</bdi> <strong class="cut">cut</strong></h1>
  <p class="cut">the report ends after 1 of 3 trials; missing: 2; running: <bdi class="kind">k</bdi> <bdi>&lt;b&gt;</bdi></p>
  <div class="bar" aria-hidden="true"><i class="failed" style="flex-grow: 0"></i><i class="passed" style="flex-grow: 1"></i><i class="ignored" style="flex-grow: 0"></i><i class="measured" style="flex-grow: 0"></i><i class="cut" style="flex-grow: 2"></i></div>
  161c161
  <li class="passed">1 passed</li>
  169c169
  <a href="#others" data-rows="1">Passed or ignored: 1</a>
  195a196
  <li id="/a" class="passed"><a href="#/a">ok</a> <bdi>a</bdi></li>
  2> reports: -: the report is cut
  [1]
  $ begun 1 'ok a' | page --title 'a<b' -
  7c7
  <title>a&lt;b: cut. 0 failed; 1 passed; 0 ignored; 0 measured</title>
  156,158c156,158
  <h1><bdi>a&lt;b</bdi> <strong class="cut">cut</strong></h1>
  <p class="cut">the report ends after 1 of 1 trials; missing: 0</p>
  <div class="bar" aria-hidden="true"><i class="failed" style="flex-grow: 0"></i><i class="passed" style="flex-grow: 1"></i><i class="ignored" style="flex-grow: 0"></i><i class="measured" style="flex-grow: 0"></i><i class="cut" style="flex-grow: 0"></i></div>
  161c161
  <li class="passed">1 passed</li>
  169c169
  <a href="#others" data-rows="1">Passed or ignored: 1</a>
  195a196
  <li id="/a" class="passed"><a href="#/a">ok</a> <bdi>a</bdi></li>
  2> reports: -: the report is cut
  [1]
  $ { begun 2 'ok a'; echo what; rows 'ok b'; report 'ok a' 'ok b' | tail -n 1; } | page --title 'a<b' -
  7c7
  <title>a&lt;b: cut. 0 failed; 1 passed; 0 ignored; 0 measured</title>
  156,158c156,158
  <h1><bdi>a&lt;b</bdi> <strong class="cut">cut</strong></h1>
  <p class="cut">line 4 is no line of a report; the report ends after 1 of 2 trials; missing: 1</p>
  <div class="bar" aria-hidden="true"><i class="failed" style="flex-grow: 0"></i><i class="passed" style="flex-grow: 1"></i><i class="ignored" style="flex-grow: 0"></i><i class="measured" style="flex-grow: 0"></i><i class="cut" style="flex-grow: 1"></i></div>
  161c161
  <li class="passed">1 passed</li>
  169c169
  <a href="#others" data-rows="1">Passed or ignored: 1</a>
  195a196
  <li id="/a" class="passed"><a href="#/a">ok</a> <bdi>a</bdi></li>
  2> reports: -: line 4: not what a report has there
  [1]
  $ begun 2 'failed a' 'running b' | page --title 'a<b' -
  7c7
  <title>a&lt;b: cut. 1 failed; 0 passed; 0 ignored; 0 measured</title>
  156,158c156,158
  <h1><bdi>a&lt;b</bdi> <strong class="failed">cut</strong></h1>
  <p class="cut">the report ends after 1 of 2 trials; missing: 1; running: <bdi>b</bdi></p>
  <div class="bar" aria-hidden="true"><i class="failed" style="flex-grow: 1"></i><i class="passed" style="flex-grow: 0"></i><i class="ignored" style="flex-grow: 0"></i><i class="measured" style="flex-grow: 0"></i><i class="cut" style="flex-grow: 1"></i></div>
  160c160
  <li class="failed">1 failed</li>
  167c167
  <a href="#failed" data-rows="1">Failed: 1</a>
  185a186
  <li id="/a" class="failed"><details open><summary><a href="#/a">FAILED</a> <bdi>a</bdi></summary><p>no message</p></details></li>
  2> reports: -: the report is cut
  [1]
  $ echo what | page --title 'a<b' -
  7c7
  <title>a&lt;b: no report. 0 failed; 0 passed; 0 ignored; 0 measured</title>
  156,157c156,157
  <h1><bdi>a&lt;b</bdi> <strong class="cut">no report</strong></h1>
  <p class="cut">line 1 is no line of a report; no report</p>
  2> reports: -: line 1: not what a report has there; does the program run with --format json?
  [1]
  $ : >none; page none
  7c7
  <title>none: no report. 0 failed; 0 passed; 0 ignored; 0 measured</title>
  156,157c156,157
  <h1><bdi>none</bdi> <strong class="cut">no report</strong></h1>
  <p class="cut">no report</p>
  2> reports: none: the report is cut
  [1]
  $ page nowhere
  7c7
  <title>nowhere: unread. 0 failed; 0 passed; 0 ignored; 0 measured</title>
  156,157c156,157
  <h1><bdi>nowhere</bdi> <strong class="cut">unread</strong></h1>
  <p class="cut">the report can't be read to its end: <bdi>No such file or directory (os error 2)</bdi>; trials that ended before: 0</p>
  2> reports: nowhere: No such file or directory (os error 2)
  [1]
  $ mkdir folder; page folder
  7c7
  <title>folder: unread. 0 failed; 0 passed; 0 ignored; 0 measured</title>
  156,157c156,157
  <h1><bdi>folder</bdi> <strong class="cut">unread</strong></h1>
  <p class="cut">the report can't be read to its end: <bdi>Is a directory (os error 21)</bdi>; trials that ended before: 0</p>
  2> reports: folder: Is a directory (os error 21)
  [1]

  $ reports page
  2> error: the following required arguments were not provided:
  2>   <FILE>
  2> 
  2> Usage: reports page <FILE>
  2> 
  2> For more information, try '--help'.
  [2]
  $ reports page cut none
  2> error: unexpected argument 'none' found
  2> 
  2> Usage: reports page [OPTIONS] <FILE>
  2> 
  2> For more information, try '--help'.
  [2]
  $ reports page --failed --rows 1 none
  2> error: the argument '--failed' cannot be used with '--rows <N>'
  2> 
  2> Usage: reports page --failed <FILE>
  2> 
  2> For more information, try '--help'.
  [2]
  $ reports page --rows -1 none
  2> error: unexpected argument '-1' found
  2> 
  2>   tip: to pass '-1' as a value, use '-- -1'
  2> 
  2> Usage: reports page [OPTIONS] <FILE>
  2> 
  2> For more information, try '--help'.
  [2]
  $ reports page --rows x none
  2> error: invalid value 'x' for '--rows <N>': invalid digit found in string
  2> 
  2> For more information, try '--help'.
  [2]
  $ reports page --rows none
  2> error: invalid value 'none' for '--rows <N>': invalid digit found in string
  2> 
  2> For more information, try '--help'.
  [2]
  $ reports page --title a --title b none
  2> error: the argument '--title <TEXT>' cannot be used multiple times
  2> 
  2> Usage: reports page [OPTIONS] <FILE>
  2> 
  2> For more information, try '--help'.
  [2]
  $ reports page --help
  Print a report as a page of HTML
  
  Usage: reports page [OPTIONS] <FILE>
  
  Arguments:
    <FILE>  A report in JSON; - is standard input
  
  Options:
        --title <TEXT>  What is in the heading; else the file's name, without its ending
        --note <TEXT>   A line below the heading
        --failed        List the failures alone
        --rows <N>      How many trials that did not fail to list at most
    -h, --help          Print help
