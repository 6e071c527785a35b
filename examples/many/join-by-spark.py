"""Joins answers by Spark, in decimals of 38 digits, which Spark adds exactly or refuses to.

usage: spark-submit join-by-spark.py FILE..      writes one answer

A line of a file is one answer to the query of regions.calql.
"""
import json
import sys

from pyspark.sql import SparkSession, functions

GROUPS = ['path', 'iteration']
WHOLE = ['count'] + [f'{kernel}#time.duration.ns' for kernel in ('sum', 'min', 'max')]
DECIMAL = [f'{kernel}#event.set#energy' for kernel in ('sum', 'min', 'max')]
SCHEMA = 'path string, iteration bigint, ' + ', '.join(f'`{it}` string' for it in WHOLE + DECIMAL)
JOINS = {'count': functions.sum, 'sum': functions.sum, 'min': functions.min, 'max': functions.max}


def joined(spark, files):
    """The joined rows. Without ANSI and FAILFAST what is too large or no answer would be null."""
    answers = spark.read.text(files)
    objects = functions.from_json('value', f'array<struct<{SCHEMA}>>', {'mode': 'FAILFAST'})
    rows = answers.select(functions.explode(objects).alias('row')).select('row.*')
    exact = [functions.col(f'`{it}`').cast('decimal(38,9)').alias(it) for it in WHOLE + DECIMAL]
    results = [JOINS[it.partition('#')[0]](functions.col(f'`{it}`')).alias(it)
               for it in WHOLE + DECIMAL]
    return rows.select(*GROUPS, *exact).groupBy(*GROUPS).agg(*results).collect()


def shown(name, value):
    """A value as `caliper` writes it: a decimal as a text without zeros at its end."""
    if name in WHOLE:
        return int(value)
    return format(value, 'f').rstrip('0').rstrip('.') if name in DECIMAL else value


def main():
    spark = SparkSession.builder.config('spark.sql.ansi.enabled', 'true').getOrCreate()
    rows = [row.asDict() for row in joined(spark, sys.argv[1:])]
    print(json.dumps([{name: shown(name, value) for name, value in row.items()
                       if value is not None} for row in rows], separators=(',', ':')))
    spark.stop()


main()
