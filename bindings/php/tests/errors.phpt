--TEST--
The number, the place and the line of each error
--EXTENSIONS--
cmk
--FILE--
<?php
use Cmk\CmkException;

function show(CmkException $error): void
{
    $name = array_search($error->getCode(), (new ReflectionClass(CmkException::class))->getConstants());
    echo $name ?: $error->getCode(), " $error->place {$error->getMessage()}\n";
}

$cases = [
    ['html', "ab\xff", []],
    ['html', 'abcdef', ['bytes' => 3]],
    ['html', '> > a', ['blocks' => 1]],
    ['tree', '***a***', ['inlines' => 1]],
    ['rewrite', '***a***', []],
    ['json', 'a', ['bytes' => 0]],
    ['parse', 'a', ['blocks' => 501]],
    ['html', 'a', ['inlines' => -1]],
];
foreach ($cases as [$call, $text, $options]) {
    try {
        "Cmk\\$call"($text, ...$options);
    } catch (CmkException $error) {
        show($error);
    }
}
show(new CmkException(99, 0));
var_dump($error instanceof RuntimeException);
try {
    Cmk\html('a', saef: true);
} catch (Error $error) {
    echo $error->getMessage(), "\n";
}
?>
--EXPECT--
NOT_UTF8 2 cmk: F1 not UTF-8 at byte 2
TOO_LONG 3 cmk: F2 input too long at byte 3
BLOCKS_TOO_DEEP 1 cmk: F3 blocks too deep on line 1
INLINES_TOO_DEEP 1 cmk: F4 inlines too deep in leaf 1
CANNOT_SPELL 5 cmk: F8 cannot be spelled: emphasis in emphasis
OUT_OF_RANGE 0 cmk: a number is out of its range
OUT_OF_RANGE 0 cmk: a number is out of its range
OUT_OF_RANGE 0 cmk: a number is out of its range
99 0 cmk: answer 99 at 0
bool(true)
Unknown named parameter $saef
