How `reports junit` writes numbers: averages as a property and with commas, and times with three decimals, to the nearest
thousandth, ties up.

  $ place=0; for average in 0 999 1000 1234567 18446744073709551615; do
  >     report "bench b: $average" >measured$place.json; reports junit measured$place.json || echo "status $?"
  >     place=$((place + 1))
  > done
  <?xml version="1.0" encoding="UTF-8"?>
  <testsuites tests="1" failures="0" errors="0" skipped="0" time="0.000">
    <testsuite name="measured0" tests="1" failures="0" errors="0" skipped="0" time="0.000">
      <testcase classname="measured0" name="b"><properties><property name="ns_per_iter" value="0"/><property name="deviation" value="1"/></properties><system-out>0 ns/iter (+/- 1)</system-out></testcase>
    </testsuite>
  </testsuites>
  <?xml version="1.0" encoding="UTF-8"?>
  <testsuites tests="1" failures="0" errors="0" skipped="0" time="0.000">
    <testsuite name="measured1" tests="1" failures="0" errors="0" skipped="0" time="0.000">
      <testcase classname="measured1" name="b"><properties><property name="ns_per_iter" value="999"/><property name="deviation" value="1"/></properties><system-out>999 ns/iter (+/- 1)</system-out></testcase>
    </testsuite>
  </testsuites>
  <?xml version="1.0" encoding="UTF-8"?>
  <testsuites tests="1" failures="0" errors="0" skipped="0" time="0.000">
    <testsuite name="measured2" tests="1" failures="0" errors="0" skipped="0" time="0.000">
      <testcase classname="measured2" name="b"><properties><property name="ns_per_iter" value="1000"/><property name="deviation" value="1"/></properties><system-out>1,000 ns/iter (+/- 1)</system-out></testcase>
    </testsuite>
  </testsuites>
  <?xml version="1.0" encoding="UTF-8"?>
  <testsuites tests="1" failures="0" errors="0" skipped="0" time="0.000">
    <testsuite name="measured3" tests="1" failures="0" errors="0" skipped="0" time="0.000">
      <testcase classname="measured3" name="b"><properties><property name="ns_per_iter" value="1234567"/><property name="deviation" value="1"/></properties><system-out>1,234,567 ns/iter (+/- 1)</system-out></testcase>
    </testsuite>
  </testsuites>
  <?xml version="1.0" encoding="UTF-8"?>
  <testsuites tests="1" failures="0" errors="0" skipped="0" time="0.000">
    <testsuite name="measured4" tests="1" failures="0" errors="0" skipped="0" time="0.000">
      <testcase classname="measured4" name="b"><properties><property name="ns_per_iter" value="18446744073709551615"/><property name="deviation" value="1"/></properties><system-out>18,446,744,073,709,551,615 ns/iter (+/- 1)</system-out></testcase>
    </testsuite>
  </testsuites>

Times of rows.

  $ times=(0 0.000499999 0.0005 0.001499999 0.0015 0.9994 0.999499999 0.9995 0.9996 9.9996 59.999499999 59.9995 \
  >     0.000000001 1.4999995 18446744073.709551615)
  $ for place in {0..14}; do trials+=("ok [k] $place <${times[place]}>"); done
  $ report --took 0.0005 "${trials[@]}" >rows.json
  $ reports junit rows.json
  <?xml version="1.0" encoding="UTF-8"?>
  <testsuites tests="15" failures="0" errors="0" skipped="0" time="0.001">
    <testsuite name="rows" tests="15" failures="0" errors="0" skipped="0" time="0.001">
      <testcase classname="rows.k" name="0" time="0.000"/>
      <testcase classname="rows.k" name="1" time="0.000"/>
      <testcase classname="rows.k" name="2" time="0.001"/>
      <testcase classname="rows.k" name="3" time="0.001"/>
      <testcase classname="rows.k" name="4" time="0.002"/>
      <testcase classname="rows.k" name="5" time="0.999"/>
      <testcase classname="rows.k" name="6" time="0.999"/>
      <testcase classname="rows.k" name="7" time="1.000"/>
      <testcase classname="rows.k" name="8" time="1.000"/>
      <testcase classname="rows.k" name="9" time="10.000"/>
      <testcase classname="rows.k" name="10" time="59.999"/>
      <testcase classname="rows.k" name="11" time="60.000"/>
      <testcase classname="rows.k" name="12" time="0.000"/>
      <testcase classname="rows.k" name="13" time="1.500"/>
      <testcase classname="rows.k" name="14" time="18446744073.710"/>
    </testsuite>
  </testsuites>

Times of runs. Each document is shown as one line.

  $ for place in {0..14}; do
  >     report --took ${times[place]} >run$place; reports junit --name run run$place | paste -sd ' ' || echo "status $?"
  > done
  <?xml version="1.0" encoding="UTF-8"?> <testsuites tests="0" failures="0" errors="0" skipped="0" time="0.000">   <testsuite name="run" tests="0" failures="0" errors="0" skipped="0" time="0.000">   </testsuite> </testsuites>
  <?xml version="1.0" encoding="UTF-8"?> <testsuites tests="0" failures="0" errors="0" skipped="0" time="0.000">   <testsuite name="run" tests="0" failures="0" errors="0" skipped="0" time="0.000">   </testsuite> </testsuites>
  <?xml version="1.0" encoding="UTF-8"?> <testsuites tests="0" failures="0" errors="0" skipped="0" time="0.001">   <testsuite name="run" tests="0" failures="0" errors="0" skipped="0" time="0.001">   </testsuite> </testsuites>
  <?xml version="1.0" encoding="UTF-8"?> <testsuites tests="0" failures="0" errors="0" skipped="0" time="0.001">   <testsuite name="run" tests="0" failures="0" errors="0" skipped="0" time="0.001">   </testsuite> </testsuites>
  <?xml version="1.0" encoding="UTF-8"?> <testsuites tests="0" failures="0" errors="0" skipped="0" time="0.002">   <testsuite name="run" tests="0" failures="0" errors="0" skipped="0" time="0.002">   </testsuite> </testsuites>
  <?xml version="1.0" encoding="UTF-8"?> <testsuites tests="0" failures="0" errors="0" skipped="0" time="0.999">   <testsuite name="run" tests="0" failures="0" errors="0" skipped="0" time="0.999">   </testsuite> </testsuites>
  <?xml version="1.0" encoding="UTF-8"?> <testsuites tests="0" failures="0" errors="0" skipped="0" time="0.999">   <testsuite name="run" tests="0" failures="0" errors="0" skipped="0" time="0.999">   </testsuite> </testsuites>
  <?xml version="1.0" encoding="UTF-8"?> <testsuites tests="0" failures="0" errors="0" skipped="0" time="1.000">   <testsuite name="run" tests="0" failures="0" errors="0" skipped="0" time="1.000">   </testsuite> </testsuites>
  <?xml version="1.0" encoding="UTF-8"?> <testsuites tests="0" failures="0" errors="0" skipped="0" time="1.000">   <testsuite name="run" tests="0" failures="0" errors="0" skipped="0" time="1.000">   </testsuite> </testsuites>
  <?xml version="1.0" encoding="UTF-8"?> <testsuites tests="0" failures="0" errors="0" skipped="0" time="10.000">   <testsuite name="run" tests="0" failures="0" errors="0" skipped="0" time="10.000">   </testsuite> </testsuites>
  <?xml version="1.0" encoding="UTF-8"?> <testsuites tests="0" failures="0" errors="0" skipped="0" time="59.999">   <testsuite name="run" tests="0" failures="0" errors="0" skipped="0" time="59.999">   </testsuite> </testsuites>
  <?xml version="1.0" encoding="UTF-8"?> <testsuites tests="0" failures="0" errors="0" skipped="0" time="60.000">   <testsuite name="run" tests="0" failures="0" errors="0" skipped="0" time="60.000">   </testsuite> </testsuites>
  <?xml version="1.0" encoding="UTF-8"?> <testsuites tests="0" failures="0" errors="0" skipped="0" time="0.000">   <testsuite name="run" tests="0" failures="0" errors="0" skipped="0" time="0.000">   </testsuite> </testsuites>
  <?xml version="1.0" encoding="UTF-8"?> <testsuites tests="0" failures="0" errors="0" skipped="0" time="1.500">   <testsuite name="run" tests="0" failures="0" errors="0" skipped="0" time="1.500">   </testsuite> </testsuites>
  <?xml version="1.0" encoding="UTF-8"?> <testsuites tests="0" failures="0" errors="0" skipped="0" time="18446744073.710">   <testsuite name="run" tests="0" failures="0" errors="0" skipped="0" time="18446744073.710">   </testsuite> </testsuites>

The time of all is the sum of times that aren't rounded, also if its nanoseconds don't fit into 64 bits.

  $ report --took 0.0004 >0.0004; report --took 0.0005 >0.0005; report --took 0.0014 >0.0014; report --took 0.0013 >0.0013
  $ report --took 0.9994 >0.9994; report --took 0.0002 >0.0002
  $ reports junit --name sum 0.0004 0.0004
  <?xml version="1.0" encoding="UTF-8"?>
  <testsuites tests="0" failures="0" errors="0" skipped="0" time="0.001">
    <testsuite name="sum" tests="0" failures="0" errors="0" skipped="0" time="0.000">
    </testsuite>
    <testsuite name="sum" tests="0" failures="0" errors="0" skipped="0" time="0.000">
    </testsuite>
  </testsuites>
  $ reports junit --name sum 0.0005 0.0005 0.0005
  <?xml version="1.0" encoding="UTF-8"?>
  <testsuites tests="0" failures="0" errors="0" skipped="0" time="0.002">
    <testsuite name="sum" tests="0" failures="0" errors="0" skipped="0" time="0.001">
    </testsuite>
    <testsuite name="sum" tests="0" failures="0" errors="0" skipped="0" time="0.001">
    </testsuite>
    <testsuite name="sum" tests="0" failures="0" errors="0" skipped="0" time="0.001">
    </testsuite>
  </testsuites>
  $ reports junit --name sum 0.0014 0.0013 0.0013
  <?xml version="1.0" encoding="UTF-8"?>
  <testsuites tests="0" failures="0" errors="0" skipped="0" time="0.004">
    <testsuite name="sum" tests="0" failures="0" errors="0" skipped="0" time="0.001">
    </testsuite>
    <testsuite name="sum" tests="0" failures="0" errors="0" skipped="0" time="0.001">
    </testsuite>
    <testsuite name="sum" tests="0" failures="0" errors="0" skipped="0" time="0.001">
    </testsuite>
  </testsuites>
  $ reports junit --name sum 0.9994 0.0002
  <?xml version="1.0" encoding="UTF-8"?>
  <testsuites tests="0" failures="0" errors="0" skipped="0" time="1.000">
    <testsuite name="sum" tests="0" failures="0" errors="0" skipped="0" time="0.999">
    </testsuite>
    <testsuite name="sum" tests="0" failures="0" errors="0" skipped="0" time="0.000">
    </testsuite>
  </testsuites>
  $ reports junit --name x run14 run12
  <?xml version="1.0" encoding="UTF-8"?>
  <testsuites tests="0" failures="0" errors="0" skipped="0" time="18446744073.710">
    <testsuite name="x" tests="0" failures="0" errors="0" skipped="0" time="18446744073.710">
    </testsuite>
    <testsuite name="x" tests="0" failures="0" errors="0" skipped="0" time="0.000">
    </testsuite>
  </testsuites>
