--TEST--
The tree as arrays, at every depth
--EXTENSIONS--
cmk
--FILE--
<?php
$text = "[a](/b) *![c](/d 'e\"\\\\ä')*\n\n1. f\n";
var_dump(Cmk\parse($text) === json_decode(Cmk\json($text), true));
Cmk\walk(Cmk\parse($text), function (array $node): void {
    if (isset($node['url'])) {
        echo $node['url'], "\n";
    }
});
$count = 0;
$deep = Cmk\parse(str_repeat('- ', 500) . str_repeat('*', 1000) . 'a' . str_repeat('*', 1000), blocks: 500, inlines: 500);
Cmk\walk($deep, function () use (&$count): void { $count++; });
echo "$count nodes\n";
$images = Cmk\parse(str_repeat('- ', 500) . str_repeat('![', 499) . '*a*' . str_repeat('](b)', 499), blocks: 500, inlines: 500);
$count = 0;
for ($node = $images; isset($node['children']); $node = $node['children'][0] ?? []) {
    $count++;
}
for (; isset($node['data']); $node = $node['data']['children'][0]) {
    $count++;
}
echo "$count levels of nodes\n";
try {
    Cmk\walk($deep, fn (array $node) => throw new Exception($node['type']));
} catch (Exception $error) {
    echo $error->getMessage(), "\n";
}
?>
--EXPECT--
bool(true)
/b
/d
1503 nodes
1501 levels of nodes
root
