`reports junit` prints reports as JUnit's XML, a suite each. Its status is 0 unless `--status` asks for that of the run.

A report with each outcome, and with texts that XML can't hold as they are.

  $ reports junit hostile.json
  <?xml version="1.0" encoding="UTF-8"?>
  <testsuites tests="7" failures="3" errors="0" skipped="1" time="0.000">
    <testsuite name="hostile" tests="7" failures="3" errors="0" skipped="1" time="0.000">
      <testcase classname="hostile" name="plain"/>
      <testcase classname="hostile.a&lt;b" name="&amp;&quot;'&gt;"/>
      <testcase classname="hostile" name="\\u{1}\\u{fffe}\x7f"><skipped/></testcase> (esc)
      <testcase classname="hostile" name="none"><failure type="failed"/></testcase>
      <testcase classname="hostile" name="empty"><failure type="failed" message=""></failure></testcase>
      <testcase classname="hostile.k" name="a\\u{5c}u{1}"><failure type="failed" message="first &lt;&amp;&gt;&quot;&#9;&#13;">first &lt;&amp;&gt;"\t&#13; (esc)
  second\t]]&gt;&#13; (esc)
  \u{5c}u{</failure></testcase>
      <testcase classname="hostile" name=""/>
    </testsuite>
  </testsuites>
  $ reports junit - <hostile.json
  <?xml version="1.0" encoding="UTF-8"?>
  <testsuites tests="7" failures="3" errors="0" skipped="1" time="0.000">
    <testsuite name="report" tests="7" failures="3" errors="0" skipped="1" time="0.000">
      <testcase classname="report" name="plain"/>
      <testcase classname="report.a&lt;b" name="&amp;&quot;'&gt;"/>
      <testcase classname="report" name="\\u{1}\\u{fffe}\x7f"><skipped/></testcase> (esc)
      <testcase classname="report" name="none"><failure type="failed"/></testcase>
      <testcase classname="report" name="empty"><failure type="failed" message=""></failure></testcase>
      <testcase classname="report.k" name="a\\u{5c}u{1}"><failure type="failed" message="first &lt;&amp;&gt;&quot;&#9;&#13;">first &lt;&amp;&gt;"\t&#13; (esc)
  second\t]]&gt;&#13; (esc)
  \u{5c}u{</failure></testcase>
      <testcase classname="report" name=""/>
    </testsuite>
  </testsuites>
  $ reports junit --name report /dev/stdin <hostile.json
  <?xml version="1.0" encoding="UTF-8"?>
  <testsuites tests="7" failures="3" errors="0" skipped="1" time="0.000">
    <testsuite name="report" tests="7" failures="3" errors="0" skipped="1" time="0.000">
      <testcase classname="report" name="plain"/>
      <testcase classname="report.a&lt;b" name="&amp;&quot;'&gt;"/>
      <testcase classname="report" name="\\u{1}\\u{fffe}\x7f"><skipped/></testcase> (esc)
      <testcase classname="report" name="none"><failure type="failed"/></testcase>
      <testcase classname="report" name="empty"><failure type="failed" message=""></failure></testcase>
      <testcase classname="report.k" name="a\\u{5c}u{1}"><failure type="failed" message="first &lt;&amp;&gt;&quot;&#9;&#13;">first &lt;&amp;&gt;"\t&#13; (esc)
  second\t]]&gt;&#13; (esc)
  \u{5c}u{</failure></testcase>
      <testcase classname="report" name=""/>
    </testsuite>
  </testsuites>
  $ reports junit --status hostile.json | diff - <(reports junit hostile.json)
  [101]
  $ report 'bench b: 5' >b.1.json; report >none.json
  $ reports junit --status none.json
  <?xml version="1.0" encoding="UTF-8"?>
  <testsuites tests="0" failures="0" errors="0" skipped="0" time="0.000">
    <testsuite name="none" tests="0" failures="0" errors="0" skipped="0" time="0.000">
    </testsuite>
  </testsuites>

The name of the file is that of the suite, unless `--name` has one. It is needed for several files, and for a name that is a
number.

  $ reports junit --name 'a&b' hostile.json
  <?xml version="1.0" encoding="UTF-8"?>
  <testsuites tests="7" failures="3" errors="0" skipped="1" time="0.000">
    <testsuite name="a&amp;b" tests="7" failures="3" errors="0" skipped="1" time="0.000">
      <testcase classname="a&amp;b" name="plain"/>
      <testcase classname="a&amp;b.a&lt;b" name="&amp;&quot;'&gt;"/>
      <testcase classname="a&amp;b" name="\\u{1}\\u{fffe}\x7f"><skipped/></testcase> (esc)
      <testcase classname="a&amp;b" name="none"><failure type="failed"/></testcase>
      <testcase classname="a&amp;b" name="empty"><failure type="failed" message=""></failure></testcase>
      <testcase classname="a&amp;b.k" name="a\\u{5c}u{1}"><failure type="failed" message="first &lt;&amp;&gt;&quot;&#9;&#13;">first &lt;&amp;&gt;"\t&#13; (esc)
  second\t]]&gt;&#13; (esc)
  \u{5c}u{</failure></testcase>
      <testcase classname="a&amp;b" name=""/>
    </testsuite>
  </testsuites>
  $ reports junit --name p b.1.json none.json hostile.json
  <?xml version="1.0" encoding="UTF-8"?>
  <testsuites tests="8" failures="3" errors="0" skipped="1" time="0.000">
    <testsuite name="p" tests="1" failures="0" errors="0" skipped="0" time="0.000">
      <testcase classname="p" name="b"><properties><property name="ns_per_iter" value="5"/><property name="deviation" value="1"/></properties><system-out>5 ns/iter (+/- 1)</system-out></testcase>
    </testsuite>
    <testsuite name="p" tests="0" failures="0" errors="0" skipped="0" time="0.000">
    </testsuite>
    <testsuite name="p" tests="7" failures="3" errors="0" skipped="1" time="0.000">
      <testcase classname="p" name="plain"/>
      <testcase classname="p.a&lt;b" name="&amp;&quot;'&gt;"/>
      <testcase classname="p" name="\\u{1}\\u{fffe}\x7f"><skipped/></testcase> (esc)
      <testcase classname="p" name="none"><failure type="failed"/></testcase>
      <testcase classname="p" name="empty"><failure type="failed" message=""></failure></testcase>
      <testcase classname="p.k" name="a\\u{5c}u{1}"><failure type="failed" message="first &lt;&amp;&gt;&quot;&#9;&#13;">first &lt;&amp;&gt;"\t&#13; (esc)
  second\t]]&gt;&#13; (esc)
  \u{5c}u{</failure></testcase>
      <testcase classname="p" name=""/>
    </testsuite>
  </testsuites>
  $ reports junit --status --name p b.1.json none.json hostile.json |
  >     diff - <(reports junit --name p b.1.json none.json hostile.json)
  [101]
  $ reports junit b.1.json none.json
  2> reports: junit of several files, or of one whose name is a number, needs --name PROGRAM
  [2]
  $ reports junit 0.json
  2> reports: junit of several files, or of one whose name is a number, needs --name PROGRAM
  [2]
  $ reports junit xml/07.json
  2> reports: junit of several files, or of one whose name is a number, needs --name PROGRAM
  [2]

Times of trials, and none.

  $ report --took 62.5 --out 13 'ok plain <0.35>' 'failed [k] b: no\nno <1.4999995>' 'ignored c' 'ok d' 'ok [k] e <0.35>' \
  >     'bench m: 1234 5 <61>' 'ok z <0>' 'failed short <0.000499999>' >a.json
  $ reports junit a.json
  <?xml version="1.0" encoding="UTF-8"?>
  <testsuites tests="8" failures="2" errors="0" skipped="1" time="62.500">
    <testsuite name="a" tests="8" failures="2" errors="0" skipped="1" time="62.500">
      <testcase classname="a" name="plain" time="0.350"/>
      <testcase classname="a.k" name="b" time="1.500"><failure type="failed" message="no">no
  no</failure></testcase>
      <testcase classname="a" name="c"><skipped/></testcase>
      <testcase classname="a" name="d"/>
      <testcase classname="a.k" name="e" time="0.350"/>
      <testcase classname="a" name="m" time="61.000"><properties><property name="ns_per_iter" value="1234"/><property name="deviation" value="5"/></properties><system-out>1,234 ns/iter (+/- 5)</system-out></testcase>
      <testcase classname="a" name="z" time="0.000"/>
      <testcase classname="a" name="short" time="0.000"><failure type="failed"/></testcase>
    </testsuite>
  </testsuites>
  $ reports junit --name a - <a.json | diff - <(reports junit a.json)
  $ report --took 62.5 --out 13 'ok plain' 'failed [k] b: no\nno' 'ignored c' 'ok d' 'ok [k] e' 'bench m: 1234 5' 'ok z' \
  >     'failed short' >plain
  $ reports junit --name a plain
  <?xml version="1.0" encoding="UTF-8"?>
  <testsuites tests="8" failures="2" errors="0" skipped="1" time="62.500">
    <testsuite name="a" tests="8" failures="2" errors="0" skipped="1" time="62.500">
      <testcase classname="a" name="plain"/>
      <testcase classname="a.k" name="b"><failure type="failed" message="no">no
  no</failure></testcase>
      <testcase classname="a" name="c"><skipped/></testcase>
      <testcase classname="a" name="d"/>
      <testcase classname="a.k" name="e"/>
      <testcase classname="a" name="m"><properties><property name="ns_per_iter" value="1234"/><property name="deviation" value="5"/></properties><system-out>1,234 ns/iter (+/- 5)</system-out></testcase>
      <testcase classname="a" name="z"/>
      <testcase classname="a" name="short"><failure type="failed"/></testcase>
    </testsuite>
  </testsuites>
  $ reports junit --name a - <plain | diff - <(reports junit --name a plain)

A report that can't be read is an error.

  $ head -n 2 hostile.json >cut2.json; mkdir folder
  $ reports junit --name none nowhere none.json
  <?xml version="1.0" encoding="UTF-8"?>
  <testsuites tests="1" failures="0" errors="1" skipped="0" time="0.000">
    <testsuite name="none" tests="1" failures="0" errors="1" skipped="0" time="0.000">
      <testcase classname="none" name="(whole report)"><error type="unreadable" message="No such file or directory (os error 2)"/></testcase>
    </testsuite>
    <testsuite name="none" tests="0" failures="0" errors="0" skipped="0" time="0.000">
    </testsuite>
  </testsuites>
  2> reports: nowhere: No such file or directory (os error 2)
  [1]
  $ reports junit --status --name none none.json nowhere
  <?xml version="1.0" encoding="UTF-8"?>
  <testsuites tests="1" failures="0" errors="1" skipped="0" time="0.000">
    <testsuite name="none" tests="0" failures="0" errors="0" skipped="0" time="0.000">
    </testsuite>
    <testsuite name="none" tests="1" failures="0" errors="1" skipped="0" time="0.000">
      <testcase classname="none" name="(whole report)"><error type="unreadable" message="No such file or directory (os error 2)"/></testcase>
    </testsuite>
  </testsuites>
  2> reports: nowhere: No such file or directory (os error 2)
  [1]
  $ reports junit nowhere/none.json
  <?xml version="1.0" encoding="UTF-8"?>
  <testsuites tests="1" failures="0" errors="1" skipped="0" time="0.000">
    <testsuite name="none" tests="1" failures="0" errors="1" skipped="0" time="0.000">
      <testcase classname="none" name="(whole report)"><error type="unreadable" message="No such file or directory (os error 2)"/></testcase>
    </testsuite>
  </testsuites>
  2> reports: nowhere/none.json: No such file or directory (os error 2)
  [1]
  $ reports junit --status --name none folder
  <?xml version="1.0" encoding="UTF-8"?>
  <testsuites tests="1" failures="0" errors="1" skipped="0" time="0.000">
    <testsuite name="none" tests="1" failures="0" errors="1" skipped="0" time="0.000">
      <testcase classname="none" name="(whole report)"><error type="unreadable" message="Is a directory (os error 21)"/></testcase>
    </testsuite>
  </testsuites>
  2> reports: folder: Is a directory (os error 21)
  [1]
  $ reports junit --name none folder hostile.json cut2.json nowhere none.json
  <?xml version="1.0" encoding="UTF-8"?>
  <testsuites tests="10" failures="3" errors="3" skipped="1" time="0.000">
    <testsuite name="none" tests="1" failures="0" errors="1" skipped="0" time="0.000">
      <testcase classname="none" name="(whole report)"><error type="unreadable" message="Is a directory (os error 21)"/></testcase>
    </testsuite>
    <testsuite name="none" tests="7" failures="3" errors="0" skipped="1" time="0.000">
      <testcase classname="none" name="plain"/>
      <testcase classname="none.a&lt;b" name="&amp;&quot;'&gt;"/>
      <testcase classname="none" name="\\u{1}\\u{fffe}\x7f"><skipped/></testcase> (esc)
      <testcase classname="none" name="none"><failure type="failed"/></testcase>
      <testcase classname="none" name="empty"><failure type="failed" message=""></failure></testcase>
      <testcase classname="none.k" name="a\\u{5c}u{1}"><failure type="failed" message="first &lt;&amp;&gt;&quot;&#9;&#13;">first &lt;&amp;&gt;"\t&#13; (esc)
  second\t]]&gt;&#13; (esc)
  \u{5c}u{</failure></testcase>
      <testcase classname="none" name=""/>
    </testsuite>
    <testsuite name="none" tests="1" failures="0" errors="1" skipped="0" time="0.000">
      <testcase classname="none" name="(whole report)"><error type="incomplete" message="the report ends after 0 of 7 trials; running: plain"/></testcase>
    </testsuite>
    <testsuite name="none" tests="1" failures="0" errors="1" skipped="0" time="0.000">
      <testcase classname="none" name="(whole report)"><error type="unreadable" message="No such file or directory (os error 2)"/></testcase>
    </testsuite>
    <testsuite name="none" tests="0" failures="0" errors="0" skipped="0" time="0.000">
    </testsuite>
  </testsuites>
  2> reports: folder: Is a directory (os error 21)
  2> reports: cut2.json: the report is cut
  2> reports: nowhere: No such file or directory (os error 2)
  [1]
  $ reports junit --name 'a&"<' nowhere - <hostile.json
  <?xml version="1.0" encoding="UTF-8"?>
  <testsuites tests="8" failures="3" errors="1" skipped="1" time="0.000">
    <testsuite name="a&amp;&quot;&lt;" tests="1" failures="0" errors="1" skipped="0" time="0.000">
      <testcase classname="a&amp;&quot;&lt;" name="(whole report)"><error type="unreadable" message="No such file or directory (os error 2)"/></testcase>
    </testsuite>
    <testsuite name="a&amp;&quot;&lt;" tests="7" failures="3" errors="0" skipped="1" time="0.000">
      <testcase classname="a&amp;&quot;&lt;" name="plain"/>
      <testcase classname="a&amp;&quot;&lt;.a&lt;b" name="&amp;&quot;'&gt;"/>
      <testcase classname="a&amp;&quot;&lt;" name="\\u{1}\\u{fffe}\x7f"><skipped/></testcase> (esc)
      <testcase classname="a&amp;&quot;&lt;" name="none"><failure type="failed"/></testcase>
      <testcase classname="a&amp;&quot;&lt;" name="empty"><failure type="failed" message=""></failure></testcase>
      <testcase classname="a&amp;&quot;&lt;.k" name="a\\u{5c}u{1}"><failure type="failed" message="first &lt;&amp;&gt;&quot;&#9;&#13;">first &lt;&amp;&gt;"\t&#13; (esc)
  second\t]]&gt;&#13; (esc)
  \u{5c}u{</failure></testcase>
      <testcase classname="a&amp;&quot;&lt;" name=""/>
    </testsuite>
  </testsuites>
  2> reports: nowhere: No such file or directory (os error 2)
  [1]

With `--root testsuite` the suite of the only file is the root.

  $ reports junit --root testsuite hostile.json
  <?xml version="1.0" encoding="UTF-8"?>
    <testsuite name="hostile" tests="7" failures="3" errors="0" skipped="1" time="0.000">
      <testcase classname="hostile" name="plain"/>
      <testcase classname="hostile.a&lt;b" name="&amp;&quot;'&gt;"/>
      <testcase classname="hostile" name="\\u{1}\\u{fffe}\x7f"><skipped/></testcase> (esc)
      <testcase classname="hostile" name="none"><failure type="failed"/></testcase>
      <testcase classname="hostile" name="empty"><failure type="failed" message=""></failure></testcase>
      <testcase classname="hostile.k" name="a\\u{5c}u{1}"><failure type="failed" message="first &lt;&amp;&gt;&quot;&#9;&#13;">first &lt;&amp;&gt;"\t&#13; (esc)
  second\t]]&gt;&#13; (esc)
  \u{5c}u{</failure></testcase>
      <testcase classname="hostile" name=""/>
    </testsuite>
  $ reports junit --root testsuite --status --name 'a&b' hostile.json
  <?xml version="1.0" encoding="UTF-8"?>
    <testsuite name="a&amp;b" tests="7" failures="3" errors="0" skipped="1" time="0.000">
      <testcase classname="a&amp;b" name="plain"/>
      <testcase classname="a&amp;b.a&lt;b" name="&amp;&quot;'&gt;"/>
      <testcase classname="a&amp;b" name="\\u{1}\\u{fffe}\x7f"><skipped/></testcase> (esc)
      <testcase classname="a&amp;b" name="none"><failure type="failed"/></testcase>
      <testcase classname="a&amp;b" name="empty"><failure type="failed" message=""></failure></testcase>
      <testcase classname="a&amp;b.k" name="a\\u{5c}u{1}"><failure type="failed" message="first &lt;&amp;&gt;&quot;&#9;&#13;">first &lt;&amp;&gt;"\t&#13; (esc)
  second\t]]&gt;&#13; (esc)
  \u{5c}u{</failure></testcase>
      <testcase classname="a&amp;b" name=""/>
    </testsuite>
  [101]
  $ reports junit --root testsuite --status - <hostile.json
  <?xml version="1.0" encoding="UTF-8"?>
    <testsuite name="report" tests="7" failures="3" errors="0" skipped="1" time="0.000">
      <testcase classname="report" name="plain"/>
      <testcase classname="report.a&lt;b" name="&amp;&quot;'&gt;"/>
      <testcase classname="report" name="\\u{1}\\u{fffe}\x7f"><skipped/></testcase> (esc)
      <testcase classname="report" name="none"><failure type="failed"/></testcase>
      <testcase classname="report" name="empty"><failure type="failed" message=""></failure></testcase>
      <testcase classname="report.k" name="a\\u{5c}u{1}"><failure type="failed" message="first &lt;&amp;&gt;&quot;&#9;&#13;">first &lt;&amp;&gt;"\t&#13; (esc)
  second\t]]&gt;&#13; (esc)
  \u{5c}u{</failure></testcase>
      <testcase classname="report" name=""/>
    </testsuite>
  [101]
  $ reports junit --root testsuite --name p b.1.json
  <?xml version="1.0" encoding="UTF-8"?>
    <testsuite name="p" tests="1" failures="0" errors="0" skipped="0" time="0.000">
      <testcase classname="p" name="b"><properties><property name="ns_per_iter" value="5"/><property name="deviation" value="1"/></properties><system-out>5 ns/iter (+/- 1)</system-out></testcase>
    </testsuite>
  $ reports junit --root testsuite cut2.json
  <?xml version="1.0" encoding="UTF-8"?>
    <testsuite name="cut2" tests="1" failures="0" errors="1" skipped="0" time="0.000">
      <testcase classname="cut2" name="(whole report)"><error type="incomplete" message="the report ends after 0 of 7 trials; running: plain"/></testcase>
    </testsuite>
  2> reports: cut2.json: the report is cut
  [1]
  $ reports junit --root testsuite --name none nowhere
  <?xml version="1.0" encoding="UTF-8"?>
    <testsuite name="none" tests="1" failures="0" errors="1" skipped="0" time="0.000">
      <testcase classname="none" name="(whole report)"><error type="unreadable" message="No such file or directory (os error 2)"/></testcase>
    </testsuite>
  2> reports: nowhere: No such file or directory (os error 2)
  [1]
  $ reports junit --root testsuite --name none folder
  <?xml version="1.0" encoding="UTF-8"?>
    <testsuite name="none" tests="1" failures="0" errors="1" skipped="0" time="0.000">
      <testcase classname="none" name="(whole report)"><error type="unreadable" message="Is a directory (os error 21)"/></testcase>
    </testsuite>
  2> reports: folder: Is a directory (os error 21)
  [1]
  $ reports junit --root testsuites hostile.json | diff - <(reports junit hostile.json)
  $ reports junit --root testsuites --name p b.1.json none.json hostile.json |
  >     diff - <(reports junit --name p b.1.json none.json hostile.json)
  $ reports junit --root testsuite --name p none.json none.json
  2> reports: junit --root testsuite takes one FILE
  [2]
  $ reports junit --root testsuite none.json -
  2> reports: junit --root testsuite takes one FILE
  [2]
  $ reports junit --root testsuite nowhere nowhere nowhere
  2> reports: junit --root testsuite takes one FILE
  [2]
  $ reports junit --root suite none.json
  2> error: invalid value 'suite' for '--root <ELEMENT>'
  2>   [possible values: testsuites, testsuite]
  2> 
  2>   tip: a similar value exists: 'testsuites'
  2> 
  2> For more information, try '--help'.
  [2]
  $ reports junit --root none.json
  2> error: invalid value 'none.json' for '--root <ELEMENT>'
  2>   [possible values: testsuites, testsuite]
  2> 
  2> For more information, try '--help'.
  [2]
  $ reports junit --root testsuite
  2> error: the following required arguments were not provided:
  2>   <FILE>...
  2> 
  2> Usage: reports junit --root <ELEMENT> <FILE>...
  2> 
  2> For more information, try '--help'.
  [2]

  $ reports junit --name n - - <none.json
  2> reports: standard input can be read once only
  [2]
  $ reports junit --help
  Print reports as JUnit's XML
  
  Usage: reports junit [OPTIONS] <FILE>...
  
  Arguments:
    <FILE>...  Reports in JSON; - is standard input
  
  Options:
        --name <PROGRAM>  The name of the program; else that of the one file, without its ending
        --status          End with 101 if a trial failed
        --root <ELEMENT>  The root element of the document, testsuite only for one FILE [default: testsuites] [possible values: testsuites, testsuite]
    -h, --help            Print help
