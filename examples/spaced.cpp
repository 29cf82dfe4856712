int main
(	)
{
}
