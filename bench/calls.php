<?php

// Measures bindings/php next to Parsedown, for bench/calls.

declare(strict_types=1);

require 'Parsedown/autoload.php';

function processor_time(): float
{
    $used = getrusage();
    return $used['ru_utime.tv_sec'] + $used['ru_stime.tv_sec'] + ($used['ru_utime.tv_usec'] + $used['ru_stime.tv_usec']) / 1e6;
}

[, $turns, $times, $file] = $argv;
$text = file_get_contents($file);
$other = new Parsedown();
$calls = ['cmk' => fn () => Cmk\html($text), 'Parsedown' => fn () => $other->text($text)];
$least = array_fill_keys(array_keys($calls), INF);

for ($turn = 0; $turn < $turns; $turn++) {
    foreach ($calls as $name => $call) {
        $began = processor_time();
        for ($n = 0; $n < $times; $n++) {
            $call();
        }
        $least[$name] = min($least[$name], processor_time() - $began);
    }
}
foreach ($least as $name => $took) {
    echo $name, ' ', $took / (int) $times, "\n";
}
