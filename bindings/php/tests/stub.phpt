--TEST--
The engine has what the stub declares
--EXTENSIONS--
cmk
--FILE--
<?php
eval(str_replace(['<?php', 'namespace Cmk;'], ['', 'namespace Stub;'], file_get_contents(__DIR__ . '/../cmk.stub.php')));

function declared(ReflectionFunctionAbstract $it): string
{
    return implode(', ', $it->getParameters()) . ': ' . $it->getReturnType();
}

$extension = new ReflectionExtension('cmk');
$names = array_map(fn ($it) => $it->getShortName(), array_values($extension->getFunctions()));
$stubs = array_map(fn ($it) => substr($it, strlen('stub\\')), preg_grep('/^stub\\\\/', get_defined_functions()['user']));
var_dump($names === array_values($stubs), array_keys($extension->getClasses()));
foreach ($names as $name) {
    [$ours, $stub] = [declared(new ReflectionFunction("Cmk\\$name")), declared(new ReflectionFunction("Stub\\$name"))];
    echo $ours === $stub ? $name : "$name: $ours\n$stub", "\n";
}
[$ours, $stub] = [new ReflectionClass('Cmk\\CmkException'), new ReflectionClass('Stub\\CmkException')];
var_dump($ours->getConstants() === $stub->getConstants());
var_dump((string) $ours->getProperty('place') === (string) $stub->getProperty('place'));
var_dump(declared($ours->getConstructor()) === declared($stub->getConstructor()));
?>
--EXPECT--
bool(true)
array(1) {
  [0]=>
  string(16) "Cmk\CmkException"
}
html
tree
json
rewrite
parse
walk
version
bool(true)
bool(true)
bool(true)
