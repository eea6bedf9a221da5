--TEST--
What the functions return
--EXTENSIONS--
cmk
--FILE--
<?php
$cases = [
    ['html', '', []],
    ['html', "a\0b", []],
    ['html', 'a & *b* ~~c~~', ['strike' => true]],
    ['html', '<b>a</b> [b](javascript:c)', ['safe' => true]],
    ['html', '<b>a</b> [b](javascript:c)', ['web_links' => true]],
    ['html', '<b>', ['no_html' => true]],
    ['html', "a\n<source>", ['older' => true]],
    ['tree', '# a', []],
    ['json', '---', []],
    ['rewrite', "a\n===\n", []],
];
foreach ($cases as [$call, $text, $options]) {
    echo json_encode("Cmk\\$call"($text, ...$options), JSON_UNESCAPED_SLASHES), "\n";
}
echo preg_match('/^\d+\.\d+\.\d+$/', Cmk\version()), "\n";
?>
--EXPECT--
""
"<p>a\ufffdb</p>\n"
"<p>a &amp; <em>b</em> <del>c</del></p>\n"
"<p>&lt;b&gt;a&lt;/b&gt; [b](javascript:c)</p>\n"
"<p><b>a</b> [b](javascript:c)</p>\n"
"<p>&lt;b&gt;</p>\n"
"<p>a</p>\n<source>\n"
"heading 1\n  text \"a\"\nowner 1 leaf 1\n"
"{\"type\":\"root\",\"data\":{\"lines\":[1,1]},\"children\":[{\"type\":\"thematicBreak\",\"data\":{\"lines\":[1,1]}}]}"
"# a\n"
1
